#!/usr/bin/env python3
"""Refuses each request for memory of the built program in turn, on each example, and looks at what it answers.

`run`, `keep` and `closures`: where no memory was there to begin with, it has to end with status 4 and write nothing. Else each step is
answered as if the steps that were told error 20 weren't in the script, and those are told nothing else; and the next `keep` over the
file goes on. So a CALL that met want of memory anywhere in its session is told error 20, left nothing behind, and the script goes on.
`check` of the recorded run accepts it, or ends with status 4 and writes nothing. `project` writes what it writes with all memory, or a
front of that and ends with status 4. Scripts in a folder `closures` are run by `closures` alone, and all others by the other four.
Wants a C compiler.

    tests/refusals.py [SCRIPT..]       the variable IFDB names another program than crates/ifdb/out/ifdb
"""

from __future__ import annotations

import pathlib
import subprocess
import sys
import tempfile
from collections.abc import Callable, Sequence
from typing import List, NamedTuple, Optional, Tuple

HERE = pathlib.Path(__file__).resolve().parent
sys.path.append(str(HERE.parent / "clients/python"))
import program  # noqa: E402

EXAMPLES = HERE.parent / "examples"
NO_MEMORY = 4

Fault = Optional[str]
"""What is wrong with an answer, if anything."""


def refusing(shim: pathlib.Path, number: int, words: Sequence[program.Word], given: bytes) -> program.Ran:
    """Runs words over an input, with one request for memory refused."""
    return program.run(*words, given=given, env={"LD_PRELOAD": str(shim), "REFUSE": str(number)})


def replies_of(written: bytes) -> List[bytes]:
    return [b"".join(lines) for lines in program.replies_of(written)]


def is_refused(reply: bytes) -> bool:
    return reply.split(b" ", 1)[1:] == [b"ERR 20 OutOfMemory\n"]


def fault_of_script(word: str, script: bytes, ran: program.Ran) -> Fault:
    """What is wrong with how a script was answered. The word is asked the script without its refused steps."""
    if ran.status == NO_MEMORY:
        return "there was no memory, and something was written" if ran.written else None
    if ran.status:
        return f"status {ran.status}"
    steps, replies = program.steps_of(script), replies_of(ran.written)
    if len(steps) != len(replies):
        return f"{len(steps)} steps have {len(replies)} replies"
    kept = b"".join(step for step, reply in zip(steps, replies) if not is_refused(reply))
    if program.run(word, given=kept).written != b"".join(it for it in replies if not is_refused(it)):
        return "others than the refused steps are answered otherwise"
    return None


def fault_of_check(ran: program.Ran) -> Fault:
    if (ran.status, ran.written) in [(0, b"ACCEPTED\n"), (NO_MEMORY, b"")]:
        return None
    return f"status {ran.status}, {ran.written!r}"


def fault_of_project(whole: bytes, ran: program.Ran) -> Fault:
    is_front = ran.status == NO_MEMORY and whole.startswith(ran.written)
    return None if is_front or (ran.status, ran.written) == (0, whole) else f"status {ran.status}"


class Word(NamedTuple):
    """A word of the program: what it is given, what is wrong with what it answers, and the file that it keeps."""

    name: str
    words: Sequence[program.Word]
    text: bytes
    fault: Callable[[program.Ran], Fault]
    file: Optional[pathlib.Path] = None

    def call(self, shim: pathlib.Path, number: int) -> program.Ran:
        if self.file:
            self.file.unlink(missing_ok=True)
        return refusing(shim, number, self.words, self.text)

    def fault_at(self, shim: pathlib.Path, number: int) -> Tuple[int, bool, Fault]:
        """The status, whether error 20 was told, and the fault."""
        ran = self.call(shim, number)
        fault = self.fault(ran)
        if not fault and self.file and program.run(*self.words).status:
            fault = "the journal can't be read back"
        return ran.status, ran.status == 0 and any(map(is_refused, replies_of(ran.written))), fault


def words_of(path: pathlib.Path, folder: pathlib.Path) -> List[Word]:
    """The words that are tried on a script."""
    script = path.read_bytes()
    if path.resolve().parent.name == "closures":
        return [Word("closures", ["closures"], script, lambda ran: fault_of_script("closures", script, ran))]
    trace = b"".join(program.recorded(script.splitlines(keepends=True)))
    level = ["project", "--tags", "none"]
    whole = program.run(*level, given=script).written
    file = folder / "journal"
    return [
        Word("run", ["run"], script, lambda ran: fault_of_script("run", script, ran)),
        Word("keep", ["keep", "--file", file], script, lambda ran: fault_of_script("run", script, ran), file),
        Word("check", ["check"], trace, fault_of_check),
        Word("project", level, script, lambda ran: fault_of_project(whole, ran)),
    ]


def tried(word: Word, name: str, shim: pathlib.Path) -> Tuple[int, int]:
    """Refuses each request of a word in turn: how many there were, and how many faults were found."""
    count, told, before, faults = int(word.call(shim, 0).said), 0, 0, 0
    if count == 0:
        print(f"{word.name} {name}: no request was seen: does the program take its memory from the C library?")
        return 0, 1
    for number in range(1, count + 1):
        status, is_told, fault = word.fault_at(shim, number)
        before += status == NO_MEMORY
        told += is_told
        if fault:
            faults += 1
            print(f"{word.name} {name}: request {number}: {fault}")
    ended = f"{before} ended with status 4, {told} were told as error 20"
    print(f"{word.name} {name}: {count} requests refused in turn; {ended}", flush=True)
    return count, faults


def main(names: Sequence[str]) -> int:
    scripts = [pathlib.Path(it) for it in names] or [*sorted(EXAMPLES.glob("*.script")), *sorted(EXAMPLES.glob("closures/*.script"))]
    with tempfile.TemporaryDirectory() as work:
        shim = pathlib.Path(work) / "refuse.so"
        subprocess.run(["cc", "-O1", "-shared", "-fPIC", "-o", shim, HERE / "refuse.c", "-ldl"], check=True)
        found = [tried(word, path.name, shim) for path in scripts for word in words_of(path, pathlib.Path(work))]
    faults = sum(it for _, it in found)
    print(f"{sum(it for it, _ in found)} requests refused, {faults} faults")
    return 1 if faults else 0


if __name__ == "__main__":
    sys.exit(main(sys.argv[1:]))
