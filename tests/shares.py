#!/usr/bin/env python3
"""Counts how often a snapshot of 6,400 rows asks for memory, and a commit of one write beside it, by the test `snapshot_shares`.

    tests/shares.py

Each request of the test for memory is refused in turn, and the test says what it was for. A snapshot that copied the rows, or a
commit that did, would ask thousands of times. Wants the test built (`rt test` in `crates/test_store`), a C compiler, and Python 3.10
or later.
"""

from __future__ import annotations

import bisect
import os
import pathlib
import subprocess
import sys
import tempfile

HERE = pathlib.Path(__file__).resolve().parent
TESTS = HERE.parent / "crates/test_store/out/test_store_tests"
TEST = "tests::snapshot_shares"
STAGES = ["filling", "write", "snapshot", "commit"]
"""What the requests are for, in their order."""


def run(shim: pathlib.Path, refuse: int) -> str:
    """Runs the test with one request refused, or none where that is 0, and returns what it said."""
    env = {**os.environ, "LD_PRELOAD": str(shim), "REFUSE": str(refuse)}
    ran = subprocess.run([TESTS, TEST], capture_output=True, text=True, env=env, check=False)
    return ran.stdout + ran.stderr


def stage_of(told: str) -> int:
    """The place in STAGES of what a refused request was for; behind all of them where the test passed."""
    return next((place for place, stage in enumerate(STAGES) if f"refused to the {stage}" in told), len(STAGES))


def main() -> int:
    with tempfile.TemporaryDirectory() as work:
        shim = pathlib.Path(work) / "refuse.so"
        subprocess.run(["cc", "-O1", "-shared", "-fPIC", "-o", shim, HERE / "refuse.c", "-ldl"], check=True)
        asked = int(run(shim, 0).split()[-1])
        # The commit is the last to ask, and may do without what it is refused.
        ends = [bisect.bisect_right(range(1, asked + 1), place, key=lambda it: stage_of(run(shim, it))) for place in range(len(STAGES) - 1)]
        ends.append(asked)
    counts = dict(zip(STAGES, (end - begin for begin, end in zip([0, *ends], ends))))
    print(", ".join(f"{stage} {count}" for stage, count in counts.items()))
    return 0 if counts["snapshot"] <= 20 and counts["commit"] < 2000 else 1


if __name__ == "__main__":
    sys.exit(main())
