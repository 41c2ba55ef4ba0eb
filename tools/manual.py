#!/usr/bin/env python3
"""Writes the manual's pages from those of docs/, so that nothing is said twice: ifdb(1), the commands of the program and its exit statuses,
and ifdb(5), the language in short.

    tools/manual.py FOLDER VERSION
"""

from __future__ import annotations

import re
import subprocess
import sys
from collections.abc import Iterable, Iterator
from pathlib import Path

TOP = Path(__file__).resolve().parent.parent
SCRIPTS_OWN = {"build", "test", "version"}
"""The commands that ./ifdb has and the program hasn't."""


def plain(text: str) -> str:
    """A line of a page without its marks, as troff takes it."""
    text = re.sub(r"\[([^\]]*)\]\([^)]*\)", r"\1", text).replace("`", "").replace("**", "")
    text = text.replace("\\", "\\e").replace("-", "\\-")
    return f"\\&{text}" if text[:1] in (".", "'") else text


def section(page: str, head: str) -> str:
    """What stands below a heading of a page of docs/."""
    text = (TOP / "docs" / page).read_text()
    return text.partition(f"\n## {head}\n")[2].partition("\n## ")[0]


def rows(text: str) -> Iterator[list[str]]:
    """The rows of the first table of a text, without its head."""
    lines = (line for line in text.split("\n") if line.startswith("|"))
    yield from ([cell.strip() for cell in line.strip("|").split("|")] for line in list(lines)[2:])


def items(told: Iterable[tuple[str, str]]) -> Iterator[str]:
    """A list in which something stands for each name."""
    for name, what in told:
        yield from (".TP", f".B {plain(name)}", plain(what))


def commands() -> Iterator[tuple[str, str]]:
    """The words of each command, and what it does, as ./ifdb tells them."""
    told = subprocess.run([TOP / "ifdb", "help"], stdout=subprocess.PIPE, text=True, check=True).stdout
    for form, does in re.findall(r"^ +\./(ifdb .*?)\s{2,}(.*)$", told, re.M):
        if form.split()[1] not in SCRIPTS_OWN:
            yield form, does


def first(version: str) -> Iterator[str]:
    yield f'.TH IFDB 1 "" "ifdb {version}"'
    yield from (".SH NAME", "ifdb \\- a database server that keeps secrets inside itself")
    yield from (".SH COMMANDS", *items(commands()))
    yield ".SH EXIT STATUS"
    yield from items((f"{status} {name}", when) for status, name, when in rows(section("OPERATING.md", "Exit statuses")))
    yield from (".SH SEE ALSO", ".BR ifdb (5)", ".PP", "/usr/share/doc/ifdb/docs/OPERATING.md says more of each command,")
    yield "and /usr/share/doc/ifdb/PROVED of what the program was built."


def fifth(version: str) -> Iterator[str]:
    yield f'.TH IFDB 5 "" "ifdb {version}"'
    yield from (".SH NAME", "ifdb \\- the language of requests, in short")
    grammar = section("GRAMMAR.md", "Grammar")
    about, _, rest = grammar.partition("\n```\n")
    yield from (".SH GRAMMAR", plain(about.strip()), ".PP", ".nf", *map(plain, rest.partition("\n```")[0].split("\n")), ".fi")
    yield ".SH ERRORS"
    errors = rows(section("LANGUAGE.md", "The table of errors"))
    yield from items((f"{number} {name}", meaning) for number, name, meaning, _ in errors)
    yield from (".SH SEE ALSO", ".BR ifdb (1)", ".PP", "/usr/share/doc/ifdb/docs/LANGUAGE.md says what each request does.")


def main(folder: str, version: str) -> int:
    for number, lines in ((1, first(version)), (5, fifth(version))):
        Path(folder, f"ifdb.{number}").write_text("\n".join(lines) + "\n")
    return 0


if __name__ == "__main__":
    sys.exit(main(*sys.argv[1:]))
