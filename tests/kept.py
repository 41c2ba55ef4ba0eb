#!/usr/bin/env python3
"""Runs the worked scripts of a journal over real files, by the built program: what is written, how long the file is, the status and
standard error, that what stands before a damaged byte goes on as a journal, and that a disk that is full loses nothing that was
answered. Prints how many calls were as they should be.

    tests/kept.py      the variable IFDB names another program than crates/ifdb/out/ifdb
"""

from __future__ import annotations

import pathlib
import resource
import subprocess
import sys
import tempfile
from collections.abc import Iterator
from typing import Optional, Tuple

ROOT = pathlib.Path(__file__).resolve().parents[1]
sys.path.append(str(ROOT / "clients/python"))
import program  # noqa: E402

EXAMPLES = ROOT / "examples"
FIRST, REPLIES = (EXAMPLES / "kept.script").read_text(), (EXAMPLES / "kept.replies").read_text()
LOOK = "OPEN\n1 HELLO admin KEY 'admin'\n1 SELECT id FROM note\n"
FOUND = "1 OPEN\n1 OK\n1 ROWS 1 1\n1 1\n"

Call = Tuple[object, ...]


def kept(file: pathlib.Path, script: str) -> Tuple[int, str, str, Optional[int]]:
    """The status, the replies, standard error, and the length of the file."""
    ran = program.run("keep", "--file", file, given=script.encode())
    return ran.status, ran.written.decode(), ran.said.decode(), file.stat().st_size if file.exists() else None


def front(file: pathlib.Path, byte: int, copy: pathlib.Path) -> pathlib.Path:
    with copy.open("wb") as out:
        subprocess.run([EXAMPLES / "journal_front.sh", file, str(byte)], stdout=out, check=True)
    return copy


def full(file: pathlib.Path, size: int) -> Tuple[int, int, int]:
    """How many INSERTs are answered where the file can't grow past a size, the status, and how many rows the next start finds."""
    script = FIRST[: FIRST.index("1 BEGIN")] + "".join(f"1 INSERT INTO note VALUES ({i})\n" for i in range(2, 1000))
    done = subprocess.run(  # (with what Python sets aside of signals: a file that may not grow sends one)
        [str(program.path()), "keep", "--file", str(file)],
        input=script.encode(),
        capture_output=True,
        check=False,
        restore_signals=False,
        preexec_fn=lambda: resource.setrlimit(resource.RLIMIT_FSIZE, (size, size)),
    )
    _, replies, _, _ = kept(file, LOOK.replace(" id ", " COUNT(*) "))
    return done.returncode, done.stdout.count(b"OK 1"), int(replies.split()[-1])


def calls(folder: pathlib.Path) -> Iterator[Tuple[Call, Call]]:
    """What each call was to give, and what it gave."""
    file, damaged, copy = (folder / name for name in ("journal", "damaged", "copy"))
    yield (0, REPLIES, "", 211), kept(file, FIRST)
    yield (0, FOUND, "", 276), kept(file, LOOK)
    # The gate behind the records of both scripts is opened, and nothing stands behind it.
    damaged.write_bytes(file.read_bytes()[:-1] + b"\1")
    yield (8, "", "ifdb: the journal is damaged at byte 275\n", 276), kept(damaged, LOOK)
    yield (0, FOUND, "", 276 + 65), kept(front(damaged, 275, copy), LOOK)
    damaged.write_bytes(b"\1\11\0")
    yield (8, "", "ifdb: the journal is damaged at byte 0\n", 3), kept(damaged, FIRST)
    status, answered, found = full(folder / "full", 10_000)
    yield (7, True, True), (status, 100 < answered < 998, found == answered)
    yield (7, "", "", None), kept(folder / "nowhere" / "journal", FIRST)
    with program.Piped("keep", "--file", file) as holder:
        holder.ask("OPEN")  # (it has the file now)
        yield (7, "", ""), kept(file, LOOK)[:3]


def main() -> int:
    count = wrong = 0
    with tempfile.TemporaryDirectory(prefix="ifdb-kept-") as folder:
        for wanted, found in calls(pathlib.Path(folder)):
            count += 1
            if found != wanted:
                wrong += 1
                print(f"{found!r} in place of {wanted!r}")
    print(f"journals: {count} calls, {wrong} wrong")
    return 1 if wrong else 0


if __name__ == "__main__":
    sys.exit(main())
