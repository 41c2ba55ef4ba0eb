#!/usr/bin/env python3
"""Times the judging of a recorded run beside the run itself, on the built program, after ./ifdb build.

    bench/traces.py [--inserts N] [--rounds N]        IFDB names another program than crates/ifdb/out/ifdb

The script is the generator's. Of each the middle one of the rounds is told, in lines of the script a second of the processor, and
the most memory that it took; the latter also for the first half of the trace.
"""

from __future__ import annotations

import argparse
import os
import pathlib
import re
import statistics
import subprocess
import sys
import time
from typing import Tuple

sys.path.append(str(pathlib.Path(__file__).resolve().parents[1] / "clients/python"))
import program  # noqa: E402


def ran(word: str, text: bytes) -> Tuple[float, int]:
    """Seconds of the processor and KiB of memory that a word takes for an input."""
    child = subprocess.Popen([program.path(), word], stdin=subprocess.PIPE, stdout=subprocess.DEVNULL)
    assert child.stdin
    child.stdin.write(text)
    child.stdin.flush()
    time.sleep(0.2)  # for what is still in the pipe
    memory = re.search(r"VmHWM:\s+(\d+) kB", pathlib.Path(f"/proc/{child.pid}/status").read_text())
    child.stdin.close()
    _, status, used = os.wait4(child.pid, 0)
    if status or memory is None:
        raise SystemExit(f"{word} ended with {status}")
    return used.ru_utime + used.ru_stime, int(memory[1])


def told(word: str, text: bytes, lines: int, rounds: int) -> float:
    taken = [ran(word, text) for _ in range(rounds)]
    seconds = statistics.median(it for it, _ in taken)
    speed = f"{lines} lines in {seconds:.3f} s of the processor, {lines / seconds:,.0f} a second"
    print(f"{word}: {speed}, {max(it for _, it in taken):,} KiB")
    return seconds


def main() -> None:
    words = argparse.ArgumentParser(description=__doc__, formatter_class=argparse.RawDescriptionHelpFormatter)
    words.add_argument("--inserts", type=int, default=10_000)
    words.add_argument("--rounds", type=int, default=5)
    given = words.parse_args()
    script = program.run("generate", str(given.inserts)).written
    lines = script.splitlines(keepends=True)
    trace = list(program.recorded(lines))
    run = told("run", script, len(lines), given.rounds)
    check = told("check", b"".join(trace), len(lines), given.rounds)
    print(f"check does {run / check:.2f} of the lines that run does in the same time")
    ends = [i for i, line in enumerate(trace) if line.startswith(b"> ")]
    half = ends[len(ends) // 2]
    told("check", b"".join(trace[:half]), len(lines) // 2, given.rounds)


if __name__ == "__main__":
    main()
