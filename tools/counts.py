#!/usr/bin/env python3
"""Counts what makes the house large: crates, lines by kind, words on pages, the files of a change, and what stands twice.

    tools/counts.py [COMMIT]      of a commit beside the tree as it stands; of the tree alone if none is said
    tools/counts.py --write       writes the table of docs/CONTRIBUTING.md anew, beside the commit that it names

The files of a change are those whose code names the closest thing that is there: for a statement, `Revoke`; for one on rows, `Delete`; for
an aggregate, `Max`; for an error, `NotGranted`; for a word of the command line, `keep` in `ifdb_words` and `ifdb_top`, once `ifdb`. Comments, tests,
benchmarks and worked scripts are left out. So they are too few: what two changes took by git was more than twice what this had told.

What stands twice are pairs of files that share a run of six lines or more, letter for letter; empty lines, comments, imports and lines of
punctuation alone are passed over, and a run that stands in more than eight files is left out.
"""

from __future__ import annotations

import re
import sys
from collections import defaultdict
from collections.abc import Iterable
from itertools import combinations
from pathlib import Path
from typing import Optional

import edits

TOP = edits.TOP
PAGE = TOP / "docs" / "CONTRIBUTING.md"
HEAD = re.compile(r"\| counted by `tools/counts\.py` \| (\w+) \| now \|\n(?:\|.*\n)*")
RUN, MOST_FILES = 6, 8

CHANGES = {
    "a statement": (r"\bRevoke\b", ("ifdb",)),
    "a statement on rows": (r"\bDelete\b", ("ifdb",)),
    "an aggregate": (r"\bMax\b", ("ifdb",)),
    "an error": (r"\bNotGranted\b", ("ifdb",)),
    "a word of the command line": (r"(?i)keep", ("ifdb_words/", "ifdb/", "ifdb_top/")),
}


class House:
    """The files of a tree: sources and definitions, each by its path below crates/, and pages."""

    def __init__(self, top: Path) -> None:
        self.top = top
        crates = top / "crates"
        listed = edits.Tree(top).uses
        read = (file for crate in listed for part in ("src", "specs", "proofs") for file in (crates / crate / part).rglob("*"))
        self.files = {str(file.relative_to(crates)): file for file in sorted(read) if file.suffix in edits.SOURCES}
        self.crates = list(listed)

    def of_kind(self, kind: str) -> list[Path]:
        return [file for name, file in self.files.items() if kind_of(name) == kind]

    def pages(self) -> list[Path]:
        return [self.top / "README.md", *(self.top / "docs").glob("*.md")]

    def readmes(self) -> list[Path]:
        """The READMEs of folders that are no crates."""
        return [*self.top.glob("*/README.md"), *(self.top / "examples").glob("*/README.md")]

    def python(self) -> list[Path]:
        return [file for file in self.top.rglob("*.py") if not {"out", "wip", ".git"} & set(file.relative_to(self.top).parts)]

    def edits(self, ending: str) -> int:
        return len(list((self.top / "crates").glob(f"*/must-fail/*.{ending}")))


def kind_of(name: str) -> str:
    """What a file is counted as: the part of its crate, or what the crate is for."""
    crate, part, *rest = name.split("/")
    if crate.startswith("bench_"):
        return "bench"
    return "test" if crate.startswith("test_") or rest[0] in ("tests", "tests.rt") else part


def lines_in(files: Iterable[Path]) -> int:
    return sum(len(file.read_text().splitlines()) for file in files)


def words_in(files: Iterable[Path]) -> int:
    return sum(len(file.read_text().split()) for file in files)


def longest(files: Iterable[Path]) -> int:
    return max(lines_in([file]) for file in files)


def files_for(house: House, pattern: str, crates: tuple[str, ...]) -> tuple[int, int]:
    """How many files a change touches, and in how many crates."""
    found = []
    for name, file in house.files.items():
        is_script = name.startswith("ifdb_laws/") and "Rows" in file.stem
        if name.startswith(crates) and kind_of(name) not in ("bench", "test") and not is_script:
            mark = f" {edits.COMMENT[file.suffix]} "
            if any(re.search(pattern, line.split(mark)[0]) for line in edits.lines_of(file)):
                found.append(name)
    return len(found), len({name.split("/")[0] for name in found})


def repeats(house: House) -> int:
    """How many pairs of files share a run of lines."""
    places: dict[str, set[str]] = defaultdict(set)
    for name, file in house.files.items():
        said = (line.strip() for line in edits.lines_of(file))
        kept = [line for line in said if re.search(r"\w", line) and not re.match(r"(pub )?(ghost )?(use|mod) ", line)]
        for at in range(len(kept) - RUN + 1):
            places["\n".join(kept[at : at + RUN])].add(name)
    runs = {frozenset(names) for names in places.values() if 1 < len(names) <= MOST_FILES}
    return len({pair for names in runs for pair in combinations(sorted(names), 2)})


def counts(house: House) -> dict[str, str]:
    sources, definitions, proofs = (house.of_kind(kind) for kind in ("src", "specs", "proofs"))
    libraries, benches, tests = (sum(name.startswith(kind) for name in house.crates) for kind in ("ifdb", "bench_", "test_"))
    told = {
        "crates: the server's, benchmarks, tests": f"{libraries + benches + tests}: {libraries}, {benches}, {tests}",
        "lines of code, definitions, proofs": f"{lines_in(sources):,}; {lines_in(definitions):,}; {lines_in(proofs):,}",
        "lines of tests, benchmarks": f"{lines_in(house.of_kind('test')):,}; {lines_in(house.of_kind('bench')):,}",
        "longest file of code, of proofs": f"{longest(sources)}; {longest(proofs)}",
        "edits tried in each run, aside": f"{house.edits('edit')}; {house.edits('edit.md')}",
        "lines of Python, in files": f"{lines_in(house.python()):,}; {len(house.python())}",
        "words on pages, on READMEs of crates, of other folders": "; ".join(
            f"{words_in(files):,}" for files in (house.pages(), (house.top / "crates").glob("*/README.md"), house.readmes())
        ),
        "pairs of files that share six lines or more": f"{repeats(house)} in {len(house.files):,}",
    }
    for change, (pattern, crates) in CHANGES.items():
        found, of = files_for(house, pattern, crates)
        told[f"files of {change}, in crates"] = f"{found}; {of}"
    return told


def table(commit: Optional[str]) -> str:
    now = counts(House(TOP))
    if commit is None:
        return "".join(f"{what}: {count}\n" for what, count in now.items())
    with edits.tree_of(commit, whole=True) as tree:
        if tree is None:
            raise SystemExit(f"counts.py: there is no commit {commit}")
        before = counts(House(tree.crates.parent))
    rows = [f"| {what} | {before[what]} | {count} |\n" for what, count in now.items()]
    return "".join([f"| counted by `tools/counts.py` | {commit} | now |\n", "|---|---|---|\n", *rows])


def main(words: list[str]) -> int:
    if words != ["--write"]:
        print(table(words[0] if words else None), end="")
        return 0
    page = PAGE.read_text()
    found = HEAD.search(page)
    if found is None:
        print(f"counts.py: {PAGE.name} has no such table", file=sys.stderr)
        return 1
    PAGE.write_text(page.replace(found[0], table(found[1])))
    return 0


if __name__ == "__main__":
    sys.exit(main(sys.argv[1:]))
