#!/usr/bin/env python3
"""Asks the built program for transactions of many writes, and looks whether it answers them.

So many rows as are said, 200,000 if none is, are inserted in one transaction, and then all of them changed by one statement and
deleted by one. What a commit does for each write has to be a loop: a stack has no room for so many calls.

    tests/many.py [ROWS]       the variable IFDB names another program than crates/ifdb/out/ifdb
"""

from __future__ import annotations

import pathlib
import sys
from collections.abc import Iterator
from typing import Tuple

sys.path.append(str(pathlib.Path(__file__).resolve().parents[1] / "clients/python"))
import program  # noqa: E402

ROWS = 200_000
AT_ONCE = 256
"""As many rows as one INSERT may have."""


def script(rows: int) -> Iterator[Tuple[str, str]]:
    """The lines of a run, and what each has to be answered."""
    yield "OPEN", "1 OPEN"
    yield "1 HELLO admin KEY 'admin'", "1 OK"
    yield "1 CREATE TABLE t (id INT, v INT, PRIMARY KEY (id))", "1 OK"
    yield "1 BEGIN", "1 OK"
    for first in range(0, rows, AT_ONCE):
        some = range(first, min(first + AT_ONCE, rows))
        yield "1 INSERT INTO t VALUES " + ", ".join(f"({it}, 0)" for it in some), f"1 OK {len(some)}"
    yield "1 COMMIT", "1 OK"
    yield "1 UPDATE t SET v = 1 WHERE id >= 0", f"1 OK {rows}"
    yield "1 DELETE FROM t WHERE v = 1", f"1 OK {rows}"


def main() -> None:
    rows = int(sys.argv[1]) if len(sys.argv) > 1 else ROWS
    lines, wanted = zip(*script(rows))
    ran = program.run("run", given="".join(f"{line}\n" for line in lines).encode())
    replies = ran.written.decode().splitlines()
    for line, want, reply in zip(lines, wanted, replies):
        if reply != want:
            sys.exit(f"many.py: {line[:60]}: {reply} in place of {want}")
    if ran.status or len(replies) != len(lines):
        sys.exit(f"many.py: {len(replies)} of {len(lines)} lines were answered, and the status is {ran.status}")
    print(f"many.py: {rows} rows were inserted, changed and deleted, each time in one transaction")


if __name__ == "__main__":
    main()
