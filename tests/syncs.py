#!/usr/bin/env python3
"""Looks by strace at the system's calls of `ifdb host`: what it writes and syncs before it answers.

    tests/syncs.py      the variable IFDB names another program than crates/ifdb/out/ifdb

A kill tells nothing of syncs, since the system holds what was written. So each request's calls are compared with those that it has to
make: a commit's record behind a closed gate, a sync, the open gate, a sync, and only then the reply; for a look the reply alone. The status is 1
where they are others, and 69 where strace or the command host isn't there.
"""

from __future__ import annotations

import os
import pathlib
import re
import shutil
import signal
import subprocess
import sys
import tempfile
from typing import List, Tuple

sys.path.append(str(pathlib.Path(__file__).resolve().parents[1] / "clients/python"))
import program  # noqa: E402

NOT_HERE = 69
CALL = re.compile(r"\d+ (?:(openat)\(AT_FDCWD, \"([^\"]*)\".* = (\d+)|(flock|fsync|pwrite64|recvfrom|sendto)\((\d+)(?:, (.*?))?\) += (-?\d+))")
OPENING = ["lock", "sync folder", "sync"]
TITLE = ["write 1 at 0", "sync", "write 15 at 1", "sync", "write 1 at 0", "sync"]
"""A title as a record: a closed gate, what stands behind it, and the gate opened."""
GATE = ["sync", "write 1 at 16", "sync"]
TABLE = "CREATE TABLE note (id INT, PRIMARY KEY (id))"


def served(folder: pathlib.Path, requests: List[str]) -> List[str]:
    """The calls of a server whose one client asks some requests, as strace tells them."""
    port, trace = program.free_port(), folder / "trace"
    traced = ["strace", "-f", "-qq", "-e", "trace=openat,flock,fsync,pwrite64,recvfrom,sendto", "-o", str(trace)]
    words = [str(program.path()), *map(str, program.hosting(folder / "db", loops=1)), f"--port={port}"]
    with subprocess.Popen([*traced, *words], stdout=subprocess.PIPE, text=True) as server:
        assert server.stdout
        if server.stdout.readline() != f"LISTENING {port}\n":
            raise SystemExit("syncs: strace, or the server below it, didn't begin")
        with program.connected(port) as session:
            for request in requests:
                session.answer(request)
            session.rest()
        child = pathlib.Path(f"/proc/{server.pid}/task/{server.pid}/children").read_text()
        os.kill(int(child), signal.SIGTERM)
        server.wait(program.PATIENCE)
    return trace.read_text().splitlines()


def told(lines: List[str], folder: pathlib.Path) -> List[str]:
    """The calls in short, of the database's file, its folder and the connection."""
    names = {}
    calls = []
    for line in lines:
        call = CALL.match(line)
        if call is None:
            continue
        opened, path, number, name, file, words, result = call.groups()
        if opened:
            names[number] = {str(folder / "db"): "", str(folder): " folder"}.get(path)
        elif name in ("recvfrom", "sendto"):
            calls += {"recvfrom": ["asked"], "sendto": ["told"]}[name] if int(result) > 0 else []
        elif names.get(file) is not None:
            calls.append(in_short(name, names[file] or "", words or "", result))
    return calls


def in_short(name: str, what: str, words: str, result: str) -> str:
    if name == "pwrite64":
        return f"write {result} at {words.rpartition(', ')[2]}"
    return {"flock": "lock", "fsync": "sync"}[name] + what


def appended(size: int, place: int) -> List[str]:
    """The calls of an append of records of so many bytes, the first of which has its gate at a place."""
    return [f"write {size} at {place + 1}", "sync", f"write 1 at {place}", "sync"]


def answered(*calls: str) -> List[str]:
    return ["asked", *calls, "told"]


def wanted() -> Tuple[List[str], List[str]]:
    """Some requests, and the calls that they have to come to."""
    table, row = 14 + 2 + len(TABLE) + 4, 30
    requests = [program.HELLO, TABLE, "INSERT INTO note VALUES (7)", "SELECT id FROM note", "BEGIN", "INSERT INTO note VALUES (8)", "COMMIT", "BYE"]
    place = 16 + table
    calls = [OPENING, TITLE, GATE, answered(), answered(*appended(table, 16)), answered(*appended(row, place)), answered()]
    calls += [answered(), answered(), answered(*appended(row, place + row)), answered()]
    return requests, [call for some in calls for call in some]


def main() -> int:
    if shutil.which("strace") is None or not program.can_host():
        print(f"syncs: nothing was tried: strace isn't there, or {program.path()} has no command host", file=sys.stderr)
        return NOT_HERE
    requests, calls = wanted()
    with tempfile.TemporaryDirectory(prefix="ifdb-syncs-") as name:
        found = told(served(pathlib.Path(name), requests), pathlib.Path(name))
    if found != calls:
        print(f"syncs: the calls are\n  {', '.join(found)}\nin place of\n  {', '.join(calls)}")
        return 1
    print(f"syncs: {len(calls)} calls for {len(requests)} requests, each as it has to be")
    return 0


if __name__ == "__main__":
    sys.exit(main())
