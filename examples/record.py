#!/usr/bin/env python3
"""Plays a script against `ifdb run`, and writes the trace of the run: each line of the script behind `> `, and directly
behind it the lines of its reply, each behind `< `.

    examples/record.py SCRIPT [WORD ..] > TRACE       the variable IFDB names another program than crates/ifdb/out/ifdb

WORDs are how the program is asked to read the script, `run` if none is said. A line is sent only once the reply to the line before it
was read, so the trace has the replies where they came, and `ifdb check` can judge it. A last line without a newline is sent with one.
"""

from __future__ import annotations

import pathlib
import sys

sys.path.append(str(pathlib.Path(__file__).resolve().parents[1] / "clients/python"))
import program  # noqa: E402


def main(path: str, *words: str) -> None:
    with open(path, "rb") as script:
        sys.stdout.buffer.writelines(program.recorded(script, words or ("run",)))


if __name__ == "__main__":
    if len(sys.argv) < 2:
        sys.exit(__doc__)
    try:
        main(*sys.argv[1:])
    except (program.Ended, ValueError) as fault:
        sys.exit(f"record.py: the program ended {fault}" if isinstance(fault, program.Ended) else f"record.py: {fault}")
