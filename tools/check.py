#!/usr/bin/env python3
"""Checks the pages against the repository: examples, links, files, crates, and the lines that PROVED counts. And checks of each
edit that must fail whether it can still be made, and of those that stand aside whether all was as it is when they were refused.

    tools/check.py             prints a line for each that is wrong, and at the end how many of the edits and of the pages passed
    tools/check.py --write     writes the numbers of lines in PROVED's tables anew

Needs python3 alone; where git or the kit is missing, nothing is asked of commits or of the kit.
"""

from __future__ import annotations

import re
import sys
from pathlib import Path

import deciding
import edits

TOP = Path(__file__).resolve().parent.parent
CRATES = TOP / "crates"
READMES = [*TOP.glob("*/README.md"), *(TOP / "examples").glob("*/README.md")]  # (of folders that are no crates)
PAGES = [TOP / "README.md", *sorted((TOP / "docs").glob("*.md")), *sorted(READMES), *sorted(CRATES.glob("*/README.md"))]
REPLY = re.compile(r"\d+ (?:OK|OPEN|ERR|ROWS|LABEL)\b")


def played(script: Path) -> set[tuple[str, str]]:
    """The requests of an example script, each with the first line of its reply."""
    replies = iter(script.with_suffix(".replies").read_text().split("\n"))
    pairs = set()
    for line in script.read_text().split("\n"):
        if not line or line.startswith("#"):
            continue
        reply = next(replies)
        rows = re.match(r"\d+ ROWS (\d+) ", reply)
        for _ in range(int(rows[1]) if rows else 0):
            next(replies)
        pairs.add((line, reply))
    return pairs


def wrong_examples(text: str, known: set[tuple[str, str]]) -> list[str]:
    """The lines of two columns, a request and its reply, that stand in no example script."""
    wrong = []
    for line in text.split("\n"):
        parts = re.split(r" {2,}", line.strip())
        is_example = len(parts) > 1 and re.match(r"(OPEN$|\d+ )", parts[0]) and REPLY.match(parts[1])
        if is_example and (parts[0], parts[1]) not in known:
            wrong.append(f"no example script has: {parts[0]} -> {parts[1]}")
    return wrong


def anchors(page: Path) -> set[str]:
    heads = re.findall(r"^#+ (.*)$", page.read_text(), re.M)
    return {re.sub(r"[^\w -]", "", head.lower()).replace(" ", "-") for head in heads}


def wrong_links(page: Path, text: str) -> list[str]:
    wrong = []
    for target in re.findall(r"\]\(([^)]+)\)", text):
        name, _, anchor = target.partition("#")
        file = (page.parent / name).resolve() if name else page
        if not file.exists():
            wrong.append(f"no such file: {target}")
        elif anchor and file.suffix == ".md" and anchor not in anchors(file):
            wrong.append(f"no such heading: {target}")
    return wrong


def wrong_names(text: str, names: set[str]) -> list[str]:
    """The files and crates in backquotes that aren't there. A file may be named by the end of its path."""
    wrong = []
    for word in set(re.findall(r"`([\w./-]+)`", text)):
        if "NAME" in word or word == "START-HERE.md":  # (a form, and a page of the kit's)
            continue
        is_file = re.search(r"\.(rt|antt|md|sh|py|edit|script|replies|dialogue)$", word)
        if is_file and not any(name == word or name.endswith("/" + word) for name in names):
            wrong.append(f"no such file: {word}")
        if re.fullmatch(r"(ifdb|test|bench)_[a-z]+", word) and not (CRATES / word).is_dir() and word not in names:
            wrong.append(f"no such crate: {word}")
    return wrong


Row = tuple[str, str, list[Path]]
"""A row of a table of files that are to be read: what it names, how many lines it says that they have, and the files."""


def reading_tables(text: str) -> list[list[Row]]:
    """The tables of the files that are to be read."""
    tables = []
    for section in text.split("| step | read | lines |")[1:]:
        rows = []
        for read, said in re.findall(r"^\| \d+\. [^|]*\| ([^|]*) \| (\d+) \|$", section.split("\n\n")[0], re.M):
            files = []
            for part in read.split("; "):
                crate, _, rest = part.partition(": ")
                names = re.findall(r"`([^`]+)`", rest)
                files += [CRATES / crate.strip("`") / ("" if "/" in name else "specs") / name for name in names]
            rows.append((read, said, files))
        tables.append(rows)
    return tables


def lines_of(files: list[Path]) -> int:
    return sum(len(file.read_text().splitlines()) for file in files)


def counted(text: str) -> str:
    """PROVED with the numbers of lines and files as they are, in its tables and before them."""
    tables = reading_tables(text)
    for read, said, files in (row for table in tables for row in table):
        text = text.replace(f"| {read} | {said} |", f"| {read} | {lines_of(files)} |")
    all_files = iter([[file for _, _, files in table for file in files] for table in tables])

    def total(_: re.Match[str]) -> str:
        files = next(all_files)
        return f"{len(files)} files of {lines_of(files):,} lines"

    return re.sub(r"\d+ files of [\d,]+ lines", total, text, count=len(tables))


def wrong_counts(text: str) -> list[str]:
    """The lines of PROVED whose numbers of lines or files are others."""
    return [f"this is to be: {now}" for was, now in zip(text.split("\n"), counted(text).split("\n")) if was != now]


def wrong_deciding(text: str) -> list[str]:
    """The files of definitions that decide what is promised and that no table lists or whose first line doesn't say so, and those
    whose first line says so and that don't."""
    listed = {file for table in reading_tables(text) for _, _, files in table for file in files}
    reached = {file for file, _ in deciding.deciding()}
    says_so = {file for file in CRATES.glob("*/specs/**/*.antt") if file.read_text().startswith("-- decides: ")}
    wrong = [(file, "decides, and isn't listed") for file in reached - listed]
    wrong += [(file, "decides, and its first line doesn't say so") for file in reached - says_so]
    wrong += [(file, "says that it decides, and doesn't") for file in says_so - reached]
    return [f"{file.relative_to(CRATES)} {why}" for file, why in sorted(wrong)]


def wrong_places(edit: Path, tree: edits.Tree) -> list[str]:
    """The lines that an edit replaces and that don't stand in its file exactly once; and the function that it names, if it isn't there."""
    wrong = []
    for change in edits.changes_of(edit):
        file = edit.parent.parent / change.file
        count = file.read_text().count(change.old) if file.is_file() else 0
        if count != 1:
            wrong.append(f"stands {count} times in its file: {change.old.strip()}")
    place = edits.refused_at(edit)
    if place and not is_there(tree, edit.parts[-3], place):
        wrong.append(f"no such function stands on it: {place.crate} {place.function}")
    return wrong


def is_there(tree: edits.Tree, crate: str, place: edits.Place) -> bool:
    """Whether a function is there, in a crate or in one that stands on it."""
    *modules, name = place.function.split("::")
    file = CRATES.joinpath(place.crate, "src", *modules).with_suffix(".rt")
    return crate in [place.crate, *tree.below(place.crate)] and file.is_file() and f"fn {name}(" in file.read_text()


def told(what: str, wrong: dict[Path, list[str]]) -> int:
    """Prints what is wrong of each file, and how many files passed. How many didn't."""
    for file, lines in wrong.items():
        for line in lines:
            print(f"{file.relative_to(TOP)}: {line}")
    failed = sum(map(bool, wrong.values()))
    print(f"{what}: {len(wrong) - failed} passed, {failed} failed")
    return failed


def main(words: list[str]) -> int:
    if words == ["--write"]:
        page = TOP / "docs" / "PROVED.md"
        page.write_text(counted(page.read_text()))
        return 0
    known: set[tuple[str, str]] = set()
    for script in (TOP / "examples").rglob("*.script"):
        known |= played(script)
    names = {
        str(file.relative_to(TOP))
        for file in TOP.rglob("*")
        if not {".git", "out", "wip"} & set(file.relative_to(TOP).parts)
    }
    pages = {}
    for page in PAGES:
        text = page.read_text()
        pages[page] = wrong_examples(text, known) + wrong_links(page, text) + wrong_names(text, names)
        if page.name == "PROVED.md":
            pages[page] += wrong_counts(text) + wrong_deciding(text)
    tree = edits.Tree(TOP)
    places = {edit: wrong_places(edit, tree) for edit in sorted(CRATES.glob("*/must-fail/*.edit*"))}
    wrong, waiting = edits.judged_notes()
    places[edits.REFUSED] = [f"tools/edits.py {crate}: {why}" for crate, why in sorted(wrong.items())]
    if waiting:
        print(f"edits that wait for a try (tools/edits.py says why): {' '.join(sorted(waiting))}")
    return 1 if told("edits", places) + told("pages", pages) else 0


if __name__ == "__main__":
    sys.exit(main(sys.argv[1:]))
