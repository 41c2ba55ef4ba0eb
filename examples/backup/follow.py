#!/usr/bin/env python3
"""Keeps a copy of a database's file, also while that is served, and follows it.

    examples/backup/follow.py F COPY [--by COMMAND] [--every SECONDS] [--once]

Each SECONDS (1) it reads what is new in F, by `tail` behind the words of COMMAND, as in --by 'ssh -T db.example', and adds it to COPY. That
is a database at every moment, also where this is killed: what is new is written and synced behind a closed gate, and then the gate is
opened, as the server does it. Nobody can serve COPY meanwhile. Once F's machine is lost, end this, and serve COPY; it lacks what F got
since the last look.

The status is 0 where SIGTERM or SIGINT ended it, or `--once` was done; and 1, with the cause on standard error, where F can't be read, isn't
what COPY followed so far, or holds what is no record.
"""

from __future__ import annotations

import argparse
import fcntl
import os
import pathlib
import shlex
import signal
import subprocess
import sys
import time
from typing import BinaryIO, List, Sequence

TITLE = b"ifdb log 1     \n"
HEAD = 14
"""The bytes of a record before its line: gate, kind, session, and in the last four the line's length."""
OVERLAP = 1024
"""So many bytes that COPY has are read again, to see that F is still the same file."""


class Stopped(Exception):
    """It can't go on."""


def end_of_records(data: bytes) -> int:
    """Where the first closed gate is, or the first record that isn't whole, in what begins with a gate."""
    place = 0
    while len(data) - place >= HEAD and data[place]:
        behind = place + HEAD + int.from_bytes(data[place + HEAD - 4 : place + HEAD], "big")
        if behind > len(data):
            break
        place = behind
    return place


class Follower:
    """A copy of a file, and how far its records go."""

    def __init__(self, file: str, copy: pathlib.Path, by: Sequence[str]) -> None:
        self._file = file
        self._by = by
        self._copy: BinaryIO = open(os.open(copy, os.O_RDWR | os.O_CREAT, 0o600), "r+b", buffering=0)
        try:
            fcntl.flock(self._copy, fcntl.LOCK_EX | fcntl.LOCK_NB)
        except BlockingIOError:
            raise Stopped(f"another program has {copy}") from None
        there = copy.read_bytes()
        if there[:1] in (b"", b"\0"):  # (nothing, or what was begun and not ended)
            self._end = 0
        elif there[1 : len(TITLE)] == TITLE[1:]:
            self._end = len(TITLE) + end_of_records(there[len(TITLE) :])
        else:
            raise Stopped(f"{copy} is no copy of a database")

    def _read(self, place: int) -> bytes:
        """F's bytes from a place to its end, in their order: so a record whose open gate is read is read whole."""
        words = [*self._by, "tail", "-c", f"+{place + 1}", shlex.quote(self._file) if self._by else self._file]
        ran = subprocess.run(words, stdout=subprocess.PIPE, check=False)
        if ran.returncode != 0:
            raise Stopped(f"{self._file} can't be read")
        return ran.stdout

    def look(self) -> int:
        """Adds what is new. How many bytes of records that is."""
        if self._end == 0:
            return self._begin()
        overlap = min(OVERLAP, self._end)
        data = self._read(self._end - overlap)
        self._copy.seek(self._end - overlap)
        if len(data) <= overlap or data[:overlap] != self._copy.read(overlap):
            raise Stopped(f"{self._file} isn't the file that was followed: begin a new copy")
        new = data[overlap:]
        size = end_of_records(new)
        if size:
            self._write(self._end + 1, new[1:size] + b"\0")
            self._write(self._end, new[:1])
            self._end += size
        return size

    def _begin(self) -> int:
        """Copies a file of which nothing is there: the first byte last, without which it is no database."""
        data = self._read(0)
        if data[1 : len(TITLE)] != TITLE[1:] or not data[0]:
            raise Stopped(f"{self._file} is no database")
        size = end_of_records(data[len(TITLE) :])
        self._end = len(TITLE) + size
        self._write(0, b"\0" + data[1 : self._end] + b"\0")
        self._write(0, data[:1])
        return size

    def _write(self, place: int, data: bytes) -> None:
        self._copy.seek(place)
        while data:
            data = data[self._copy.write(data) :]
        os.fsync(self._copy.fileno())


def ended(*_: object) -> None:
    raise KeyboardInterrupt


def main(words: List[str]) -> int:
    parser = argparse.ArgumentParser(description=__doc__, formatter_class=argparse.RawDescriptionHelpFormatter)
    parser.add_argument("file")
    parser.add_argument("copy", type=pathlib.Path)
    parser.add_argument("--by", type=shlex.split, default=[])
    parser.add_argument("--every", type=float, default=1)
    parser.add_argument("--once", action="store_true")
    given = parser.parse_args(words)
    signal.signal(signal.SIGTERM, ended)
    try:
        follower = Follower(given.file, given.copy, given.by)
        follower.look()
        while not given.once:
            time.sleep(given.every)
            follower.look()
    except Stopped as why:
        print(f"follow: {why}", file=sys.stderr)
        return 1
    except KeyboardInterrupt:
        pass
    return 0


if __name__ == "__main__":
    sys.exit(main(sys.argv[1:]))
