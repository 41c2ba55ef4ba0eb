#!/usr/bin/env python3
"""Records each example script, and has the built program judge the trace: it is accepted, and after one of its reply lines was
altered, dropped or doubled it is refused at the first line that differs. Prints how many traces were judged.

    tests/traces.py      the variable IFDB names another program than crates/ifdb/out/ifdb
"""

from __future__ import annotations

import pathlib
import sys
from collections.abc import Iterator
from itertools import zip_longest
from typing import List, Tuple

ROOT = pathlib.Path(__file__).resolve().parents[1]
sys.path.append(str(ROOT / "clients/python"))
import program  # noqa: E402


def verdict(trace: List[bytes]) -> str:
    judged = program.run("check", given=b"".join(trace))
    return f"{judged.written.decode()}status {judged.status}"


def changes(trace: List[bytes]) -> Iterator[List[bytes]]:
    """The trace with one reply line altered, dropped or doubled."""
    for at, line in enumerate(trace):
        if line.startswith(b"< "):
            altered: Tuple[List[bytes], ...] = ([line.removesuffix(b"\n") + b"!\n"], [], [line, line])
            yield from (trace[:at] + lines + trace[at + 1 :] for lines in altered)


def first_difference(trace: List[bytes], changed: List[bytes]) -> int:
    """The number of the first line that differs, from 1."""
    return 1 + next(at for at, (one, other) in enumerate(zip_longest(trace, changed)) if one != other)


def main() -> int:
    count = wrong = 0
    for path in sorted((ROOT / "examples").glob("*.script")):
        with path.open("rb") as script:
            trace = list(program.recorded(script))
        wanted = [(trace, "ACCEPTED\nstatus 0")]
        wanted += [(lines, f"REFUSED {first_difference(trace, lines)}\nstatus 9") for lines in changes(trace)]
        for lines, said in wanted:
            count += 1
            if verdict(lines) != said:
                wrong += 1
                print(f"{path.name}: {verdict(lines)!r} in place of {said!r}")
    print(f"traces: {count} judged, {wrong} wrong")
    return 1 if wrong else 0


if __name__ == "__main__":
    sys.exit(main())
