#!/usr/bin/env python3
"""Times scripts over a journal, on the built program, after ./ifdb build.

    bench/keep.py [--steps N] [--records N] [--rounds N] [FOLDER ..]      IFDB names another program than crates/ifdb/out/ifdb

In each FOLDER (else in this one and in /dev/shm): INSERTs of one row, each kept for itself, in the same rounds beside SQLite with
journal_mode=WAL and synchronous=FULL and one INSERT a transaction. Both read their statements as a text from a pipe. Then a journal
of many records, made without the disk's syncs in /dev/shm, is done again by a `keep` that asks nothing, beside a `run` of the same
lines. Of each figure the middle one of the rounds is told, with the processor time of the program. Wants sqlite3.
"""

from __future__ import annotations

import argparse
import os
import pathlib
import statistics
import sys
import tempfile
from typing import List

sys.path.append(str(pathlib.Path(__file__).resolve().parents[1] / "clients/python"))
import program  # noqa: E402

BEGIN = "OPEN\n1 HELLO admin KEY 'admin'\n1 CREATE TABLE note (id INT, body TEXT, PRIMARY KEY (id))\n"
SQLITE = "PRAGMA journal_mode=WAL; PRAGMA synchronous=FULL;\nCREATE TABLE note (id INT PRIMARY KEY, body TEXT);\n"
GATE, KIND_OPEN, KIND_ASK = b"\x01", b"\x01", b"\x02"
SHUT = b"\0"


def ran(*command: program.Word, given: bytes, lines: int) -> program.Timed:
    """What a command takes that has to write so many lines, and no refusal."""
    took = program.timed(*command, given=given)
    written = took.written.count(b"\n")
    if b"ERR" in took.written or written != lines:
        raise SystemExit(f"{command[0]}: {written} lines for {lines}: {took.written[-200:]!r}")
    return took


def record(kind: bytes, session: int, line: bytes) -> bytes:
    """A record behind its open gate."""
    return GATE + kind + session.to_bytes(8, "big") + len(line).to_bytes(4, "big") + line


def journal_of(script: str) -> bytes:
    """The journal of a script of session 1 whose lines all have records."""
    parts = []
    for line in script.encode().splitlines():
        parts.append(record(KIND_OPEN, 0, b"") if line == b"OPEN" else record(KIND_ASK, 1, line.removeprefix(b"1 ")))
    return b"".join(parts) + SHUT


def inserts(count: int) -> List[str]:
    return [f"INSERT INTO note VALUES ({i}, 'a note of some forty bytes, as notes are')" for i in range(count)]


def of_session(statements: List[str]) -> str:
    return "".join(f"1 {it}\n" for it in statements)


def told(what: str, count: int, times: List[program.Timed]) -> None:
    clock = statistics.median(it.clock for it in times)
    processor = statistics.median(it.processor for it in times) / count * 1e6
    print(f"{what}: {count} in {clock:.2f} s, {count / clock:,.0f} a second, {processor:.1f} us of a processor each", flush=True)


def kept(folder: str, steps: int, rounds: int) -> None:
    """INSERTs that are kept one by one, and the same of SQLite, in a folder."""
    script = BEGIN + of_session(inserts(steps))
    statements = SQLITE + "".join(f"{it};\n" for it in inserts(steps))
    ours, theirs, size = [], [], 0
    for _ in range(rounds):
        with tempfile.TemporaryDirectory(prefix="ifdb-keep-", dir=folder) as name:
            work = pathlib.Path(name)
            ours.append(ran(program.path(), "keep", "--file", work / "journal", given=script.encode(), lines=steps + 3))
            size = (work / "journal").stat().st_size
            theirs.append(ran("sqlite3", work / "notes.db", given=statements.encode(), lines=1))
    told(f"{folder}: INSERTs kept", steps, ours)
    told(f"{folder}: the same in SQLite", steps, theirs)
    text = len(script) - len(BEGIN)
    print(f"{folder}: {size / (steps + 3):.1f} bytes a record, of lines of {text / steps:.1f}")


def replayed(records: int, rounds: int) -> None:
    """A journal that is done again, and a run of the same lines."""
    script = BEGIN + of_session(inserts(records))
    again, plain = [], []
    with tempfile.TemporaryDirectory(prefix="ifdb-keep-", dir="/dev/shm") as name:
        file = pathlib.Path(name) / "journal"
        file.write_bytes(journal_of(script))
        size = file.stat().st_size
        for _ in range(rounds):
            again.append(ran(program.path(), "keep", "--file", file, given=b"", lines=0))
            with file.open("r+b") as journal:  # (without the record that says of the start)
                journal.truncate(size)
                journal.seek(size - len(SHUT))
                journal.write(SHUT)
            plain.append(ran(program.path(), "run", given=script.encode(), lines=records + 3))
    told("records done again", records + 3, again)
    told("the same lines by run", records + 3, plain)


def main() -> None:
    words = argparse.ArgumentParser(description=__doc__, formatter_class=argparse.RawDescriptionHelpFormatter)
    words.add_argument("folders", nargs="*", default=[".", "/dev/shm"])
    words.add_argument("--steps", type=int, default=2000)
    words.add_argument("--records", type=int, default=1_000_000)
    words.add_argument("--rounds", type=int, default=3)
    given = words.parse_args()
    print(f"{os.cpu_count()} processors", flush=True)
    for folder in given.folders:
        kept(folder, given.steps, given.rounds)
    replayed(given.records, given.rounds)


if __name__ == "__main__":
    main()
