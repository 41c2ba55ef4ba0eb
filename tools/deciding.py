#!/usr/bin/env python3
"""The definitions that decide what the program is promised to do: those that the clauses of its top call cite, and those that these cite.

    tools/deciding.py            prints the files in which they stand, each with how many of its definitions decide
    tools/deciding.py --why F    prints one way from the top call to the file F

A definition stands in a file of a crate's specs/; it cites another where it names it. The words of traits that a clause speaks
of (sources, sinks, sites, disks, shelves) are begun with as well, and so are those by which a served database hears its site, and the laws that no clause of that call states: what the
parser reads by the written grammar, and what a journal's next script begins with. Each such file begins with a line
`-- decides: ..`, and docs/PROVED.md lists it.
"""

from __future__ import annotations

import re
import sys
from pathlib import Path
from typing import NamedTuple, Optional

TOP = Path(__file__).resolve().parent.parent
CRATES = TOP / "crates"
ROOTS = [
    "ifdb_top/src/all.rt",
    "ifdb_top/src/more.rt",
    *(f"ifdb_io/src/{name}.rt" for name in ("outside", "doors")),
    *(f"ifdb_disk/src/{name}.rt" for name in ("disk", "shelf")),
    "ifdb_folder/src/folder.rt",
    *(f"{crate}/src/laws.rt" for crate in ("ifdb_parse", "ifdb_keep", "ifdb_keyed")),
]
# The rules by which the parser's definition reads. The laws of ifdb_parse tie what they give to the written grammar.
TIED = ["ifdb_parse/specs/rules", "ifdb_parse/specs/theory"]
DECLARED = re.compile(r"(?:(?:abbrev|unfoldable|pub|record|data) +)+([^\s:(){}]+)")
SIGNED = re.compile(r"([^\s:(){}]+) +:")
NAME = re.compile(r"[^\s(){},;.\[\]|λ→]+")

Definition = tuple[Path, str]
# What a name of a file stands for: a file of definitions and the name there, or the file as a whole.
Named = dict[str, tuple[Path, Optional[str]]]


class Parsed(NamedTuple):
    """The definitions of a file, each with its lines, and what names stand for there."""

    lines: dict[str, list[str]]
    named: Named


def parts_of(name: str) -> list[str]:
    """The words by which a name is written: an operator's signs, or the name itself."""
    return [part for part in name.split("◌") if part] if "◌" in name else [name]


class Definitions:
    """The definitions of the crates in a folder."""

    def __init__(self, crates: Path) -> None:
        self.crates = crates
        self.files: dict[Path, Parsed] = {}

    def uses_of(self, text: str) -> Named:
        named: Named = {}
        for module, _, names, alias in re.findall(r"use Rattle\.([\w.]+?)(\.\{([^}]*)\}| as (\w+))", text):
            crate, _, place = module.partition(".specs.")
            if not place:
                continue
            file = self.crates / crate / "specs" / (place.replace(".", "/") + ".antt")
            if alias:
                named[alias] = (file, None)
            items = [part.strip() for part in str(names).split(",")]
            for item in filter(None, items):
                own, _, other = item.partition(" as ")
                for sign in parts_of(other or own):
                    named[sign] = (file, own)
        return named

    def parsed(self, file: Path) -> Parsed:
        if file not in self.files:
            self.files[file] = self.parse(file)
        return self.files[file]

    def parse(self, file: Path) -> Parsed:
        text = file.read_text()
        found: dict[str, list[str]] = {}
        current: str | None = None
        depth = 0  # of the items of the innermost module
        for line in text.split("\n"):
            line = line.split("--")[0].rstrip()
            if not line or line.startswith("use "):
                continue
            depth = min(depth, len(line) - len(line.lstrip()))
            item = line[depth:]
            if item.startswith(("module ", "pub module ")):
                depth += 2
                continue
            begun = DECLARED.match(item) or SIGNED.match(item)
            if begun:
                current = begun[1]
                found.setdefault(current, [])
            if current:
                found[current].append(item)
        return Parsed(found, self.uses_of(text))

    def cited_by(self, lines: list[str], file: Path | None, named: Named) -> set[Definition]:
        """The definitions that lines of a file speak of."""
        words = {word for line in lines for word in NAME.findall(line)}
        own = self.parsed(file).lines if file else {}
        cited = {(file, name) for name in own for part in parts_of(name) if file and part in words}
        for word in words & set(named):
            other, name = named[word]
            if other.is_file() and str(other.parent.relative_to(self.crates)) not in TIED:
                names = [name] if name else [it for it in self.parsed(other).lines if it in words]
                cited |= {(other, it) for it in names}
        return cited

    def deciding(self) -> dict[Definition, Definition | Path]:
        """Each definition that decides, with what cites it."""
        found: dict[Definition, Definition | Path] = {}
        todo: list[Definition] = []

        def add(cited: set[Definition], by: Definition | Path) -> None:
            for it in sorted(cited - set(found)):
                found[it] = by
                todo.append(it)

        # An older checkout lacks what came since.
        for root in filter(Path.is_file, (self.crates / place for place in ROOTS)):
            text = root.read_text()
            clauses = [line.split("//")[0] for line in text.split("\n") if "ghost use" not in line]
            add(self.cited_by(clauses, None, self.uses_of(text)), root)
        while todo:
            file, name = it = todo.pop()
            lines, named = self.parsed(file)
            add(self.cited_by(lines.get(name, []), file, named), it)
        return found


def deciding() -> dict[Definition, Definition | Path]:
    """Each definition of this checkout that decides, with what cites it."""
    return Definitions(CRATES).deciding()


def main(words: list[str]) -> int:
    definitions = Definitions(CRATES)
    found = definitions.deciding()
    if words[:1] == ["--why"]:
        at: Definition | Path | None = next((it for it in found if str(it[0]).endswith(words[1])), None)
        while isinstance(at, tuple):
            print(f"{at[0].relative_to(CRATES)}: {at[1]}")
            at = found[at]
        print(at.relative_to(CRATES) if at else "not reached")
        return 0
    files: dict[Path, list[str]] = {}
    for file, name in found:
        files.setdefault(file, []).append(name)
    for file, names in sorted(files.items()):
        print(f"{file.relative_to(CRATES)} {len(names)} of {len(definitions.parsed(file).lines)}")
    return 0


if __name__ == "__main__":
    sys.exit(main(sys.argv[1:]))
