#!/usr/bin/env python3
"""The edits that must fail and that stand aside: those that the gate doesn't try, since the prover refused them over the text as it is.

    tools/edits.py             tells which crates' edits have to be tried again or wait for it, and why
    tools/edits.py NAME..      tries all edits of these crates, and notes the crates of which all were refused
    tools/edits.py --all       tries those of all these crates

An edit stands aside under a name that ends in edit.md. What refuses it is a contract, and what a contract says is said by the definitions
and the contracts below as well. So tools/refused.txt notes for a crate the sum of its own text; the commit over which all of its edits
were refused; and the kit. tools/check.py fails where the crate's text, an edit or the kit is another, and where a definition that stood
below it then and decides what the program is promised to do (tools/deciding.py) is changed or gone. Where another definition or a contract
below is, the edits wait for a try, and tools/check.py says so: a weak one shows in the proofs up to the clauses of the program, unless
nothing of the program stands on it. What came since and nothing of the crate cites hides no edit.

A crate of which not all edits were tried over its present text stands in tools/refused.txt with the word `waits:` and the reason, and
tools/check.py tells of it at each run: a debt, which the next change of the crate pays first.

An edit of a definition may be refused in a crate above alone. Its file has a line `at: CRATE PATH`, the function whose contract is the law
or the worked script that refuses it: the edited crate, if that is another, has to be proved with the edit, and the function then not. What
such crates and those below them define and promise counts for the note as well.

An edit counts as refused where the prover says that the edited crate isn't proved. Where it gave up at a limit of its own, or where only a
proof misses a name that the edit took away, no contract refused anything, and the crate isn't noted.

Wants the kit and git, the text committed, and a crate that rt check has proved, without which each try takes a whole proof.
"""

from __future__ import annotations

import fcntl
import functools
import hashlib
import io
import re
import shutil
import subprocess
import sys
import tarfile
import tempfile
from collections import Counter
from collections.abc import Iterable, Iterator
from contextlib import contextmanager
from pathlib import Path
from typing import NamedTuple, Optional

import deciding

TOP = Path(__file__).resolve().parent.parent
REFUSED = TOP / "tools" / "refused.txt"
ASIDE = ".md"
SOURCES = (".rt", ".antt")
PARTS, BUILT = ("src", "specs", "proofs"), "out/rlib"
TOLD = re.compile(r"must-fail (?P<crate>\w+)/(?P<edit>\S+\.edit): (?P<said>.*)")
IS_REFUSED = "refused, as it must be"
# What rt says behind IS_REFUSED where no contract refused the edit.
BUT = ("(only by a limit of the prover", "(only because a proof file names")
COMMENT = {".rt": "//", ".antt": "--"}
# How an item of a source file begins that contracts are made of, with what ends the line that ends it, once its brackets are closed: a
# ghost item, a declaration, a signature with its clauses.
CLAUSE = re.compile(r"(ensures|requires)\b")
GHOST = re.compile(r"(pub(\(\w+\))? )?ghost\b")
DECLARATION = re.compile(r"(pub(\(\w+\))? )?(struct|enum|type|static|const|trait)\b(?! fn\b)")
SIGNATURE = re.compile(r"(pub(\(\w+\))? )?(const )?fn\b")
# What a file takes from another, the names that an item has, and how an operator stands among those.
IMPORT = re.compile(r"\buse Rattle\.([\w.]+?)\.\{([^}]*)\}")
NAME = re.compile(r"[^\s(){},;.\[\]|λ→]+")
OPERAND = "◌"
# How a definition begins, and a field of one.
DEFINITION = re.compile(r"\s*((abbrev|unfoldable|pub|record|data|infix\w*) |[^\s:(){}]+ +: )")
FIELD = re.compile(r"\s+pub (?!record|data)\S+ +:")
WAITS = "waits: "
# What rt check ends with; what it says of an error, of one in what an edit changed, and of one that only tells of a name that is gone.
PROVED, NOT_PROVED = 0, 1
ERROR = re.compile(r"(note: )?\S+:\d+:\d+: error")
UNREAD = re.compile(r"(\./)?(src|specs)/")
NAME_GONE = re.compile(r"(note: )?(\./)?proofs/.*(has no field|is not in scope|has no `|was not admitted)")
WRONG_WORDS, FAILED = 64, 1


def lines_of(file: Path) -> list[str]:
    """The lines of a file that say something: not the empty ones, and not those of a comment alone."""
    comment = COMMENT.get(file.suffix, "#")
    return [line for line in file.read_text().split("\n") if line.strip() and not line.lstrip().startswith(comment)]


def depth_of(line: str) -> int:
    """How many brackets a line opens and doesn't close."""
    return sum(map(line.count, "({[")) - sum(map(line.count, ")}]"))


def imports(file: Path) -> dict[str, set[str]]:
    """What the names of a file stand for that it takes from others."""
    named: dict[str, set[str]] = {}
    for module, names in IMPORT.findall(file.read_text()):
        for item in str(names).split(","):
            own, _, other = item.strip().partition(" as ")
            words = [part for part in (other or own).split(OPERAND) if part]
            for word in words:
                named.setdefault(word, set()).add(f"{module}.{own}")
    return named


def resolved(file: Path, items: list[str]) -> list[str]:
    """Items of a file, each with what it cites of others. So an item is another where a name in it comes to stand for something else."""
    named = imports(file)
    cited = ((item, sorted(set(NAME.findall(item)) & named.keys())) for item in items)
    return ["\n".join([item, *(f"{word}: {' '.join(sorted(named[word]))}" for word in words)]) for item, words in cited]


def contracts(file: Path) -> list[str]:
    """What a source file promises: each signature that has clauses with these, its ghost items, and its types and constants. They are told
    by how rt fmt lays them out: each begins a line, and a line of its own, or the end of one, begins a body. Who may name them is not
    among it."""
    items: list[list[str]] = []
    is_open = False  # the last item goes on
    depth = 0
    for line in lines_of(file):
        head = line.strip()
        if head.startswith("ghost use ") and " as " not in head:
            continue
        if depth == 0 and (GHOST.match(head) or DECLARATION.match(head) or SIGNATURE.match(head)):
            items.append([])
            is_open = True
        elif depth == 0 and head == "{":
            is_open = False
        if not is_open:
            continue
        items[-1].append(head)
        if not SIGNATURE.match(items[-1][0]) or CLAUSE.match(head) or depth:
            depth = max(depth + depth_of(line), 0)
        if depth == 0 and head.endswith(("{", ";", "}")) and not CLAUSE.match(head):
            is_open = SIGNATURE.match(items[-1][0]) is not None and head.endswith("}")
    said = [item for item in items if not SIGNATURE.match(item[0]) or any(map(CLAUSE.match, item))]
    return resolved(file, [re.sub(r"^pub(\(\w+\))? ", "", "\n".join(item)) for item in said])


def definitions(file: Path) -> list[str]:
    """What a file of definitions defines, each with its clauses."""
    items: list[list[str]] = []
    for line in lines_of(file):
        if line.startswith("use ") and " as " not in line:
            continue
        if not items or line.startswith("use ") or DEFINITION.match(line) and not FIELD.match(line):
            items.append([])
        items[-1].append(line.strip())
    return resolved(file, ["\n".join(item) for item in items])


class Place(NamedTuple):
    """A function of a crate, by the path of its modules."""

    crate: str
    function: str


def refused_at(edit: Path) -> Optional[Place]:
    """The function whose contract is to refuse an edit; None where all of the edited crate is tried."""
    said = re.search(r"^at: (\w+) ([\w:]+)$", edit.read_text(), re.M)
    return Place(said[1], said[2]) if said else None


class Change(NamedTuple):
    """A text of a file of the edited crate, and what an edit puts in its place."""

    file: str
    old: str
    new: str


def changes_of(edit: Path) -> Iterator[Change]:
    file = old = ""
    for line in edit.read_text().split("\n"):
        word, _, rest = line.partition(":")
        text = rest.removeprefix(" ")
        if word == "file":
            file = text
        elif word == "old":
            old = text
        elif word == "new":
            yield Change(file, old, text)


class Tree:
    """The crates of a checkout."""

    def __init__(self, top: Path) -> None:
        self.crates = top / "crates"
        lines = [line.partition(":") for line in lines_of(top / "crates.txt")]
        self.uses = {head.split()[0]: uses.split() for head, _, uses in lines}

    def edits(self, crate: str) -> list[Path]:
        return sorted((self.crates / crate / "must-fail").glob("*.edit*"))

    def with_aside(self) -> list[str]:
        """The crates of which some edit stands aside."""
        return sorted({edit.parts[-3] for edit in self.crates.glob(f"*/must-fail/*.edit{ASIDE}")})

    def below(self, crate: str) -> list[str]:
        """The crates of this repository that a crate stands on, through others too."""
        found: set[str] = set()
        left = [crate]
        while left:
            uses = set(self.uses.get(left.pop(), ())) & set(self.uses) - found
            found |= uses
            left += uses
        return sorted(found)

    def judges(self, crate: str) -> list[str]:
        """The crates whose definitions and contracts say whether the edits of a crate are refused, but for the crate itself: those below it,
        and those that its edits name, with those below them."""
        named = {place.crate for edit in self.edits(crate) if (place := refused_at(edit))}
        return sorted({name for top in {crate, *named} for name in [top, *self.below(top)]} - {crate})

    def files(self, crate: str, *parts: str) -> list[Path]:
        top = self.crates / crate
        return sorted(file for part in parts for file in (top / part).rglob("*") if file.suffix in SOURCES)

    @functools.cache
    def promises(self, crate: str) -> Counter[str]:
        """A crate's definitions and contracts, but for those of its tests; how often each stands, since two may read alike."""
        sources = [file for file in self.files(crate, "src") if "tests" not in (file.stem, file.parent.name)]
        said = [item for file in sources for item in contracts(file)]
        said += [item for file in self.files(crate, "specs") for item in definitions(file)]
        return Counter(said)

    def promises_of(self, crates: Iterable[str]) -> Counter[str]:
        """Those of some crates, each behind the name of its crate."""
        return Counter({f"{name}: {item}": count for name in crates for item, count in self.promises(name).items()})

    @functools.cache
    def decided(self) -> dict[str, set[str]]:
        """Of each crate the definitions that decide what the program is promised, each with what it cites."""
        walk = deciding.Definitions(self.crates)
        found: dict[str, set[str]] = {}
        for file, name in walk.deciding():
            lines, named = walk.parsed(file)
            place = file.relative_to(self.crates)
            cited = sorted(f"{other.relative_to(self.crates)}: {it}" for other, it in walk.cited_by(lines.get(name, []), file, named))
            found.setdefault(place.parts[0], set()).add("\n".join([f"{place}: {name}", *lines.get(name, []), *cited]))
        return found

    def decided_in(self, crates: Iterable[str]) -> set[str]:
        """Those of some crates."""
        return {item for name in crates for item in self.decided().get(name, ())}

    def text(self, crate: str) -> str:
        """The sum of a crate's own text, but for comments and edits."""
        own = self.files(crate, *PARTS)
        return sum_of((str(file.relative_to(self.crates)), lines_of(file)) for file in own)

    def changes(self, crate: str) -> dict[str, str]:
        """What each edit of a crate changes, by its name."""
        return {edit.name.removesuffix(ASIDE): edit.read_text() for edit in self.edits(crate)}


def sum_of(said: Iterable[tuple[str, list[str]]]) -> str:
    return hashlib.sha256(repr(sorted(said)).encode()).hexdigest()[:32]


# ---- Notes


class Note(NamedTuple):
    """Over what text all edits of a crate were refused: its sum, a commit that has it, and the kit."""

    sum: str
    commit: str
    kit: str


def lines_noted() -> dict[str, str]:
    """What tools/refused.txt says of each crate."""
    lines = REFUSED.read_text().splitlines() if REFUSED.exists() else []
    return dict(line.split(" ", 1) for line in lines if line)


def noted() -> dict[str, Note]:
    return {name: Note(*said.split(" ", 2)) for name, said in lines_noted().items() if not said.startswith(WAITS)}


def owed() -> dict[str, str]:
    """The crates whose edits are told to wait, each with the reason."""
    return {name: said.removeprefix(WAITS) for name, said in lines_noted().items() if said.startswith(WAITS)}


def write_note(crate: str, note: Note) -> None:
    with open(__file__) as lock:  # (crates may be tried side by side)
        fcntl.flock(lock, fcntl.LOCK_EX)
        notes = lines_noted() | {crate: " ".join(note)}
        REFUSED.write_text("".join(f"{name} {said}\n" for name, said in sorted(notes.items())))


def kit() -> Optional[str]:
    """How the kit names itself; None where it isn't there."""
    if shutil.which("rt") is None:
        return None
    return subprocess.run(["rt", "version"], capture_output=True, text=True, check=True).stdout.strip()


def git(*words: str) -> Optional[bytes]:
    """What git says; None where it fails, or isn't there."""
    try:
        return subprocess.run(["git", "-C", str(TOP), *words], capture_output=True, check=True).stdout
    except (OSError, subprocess.CalledProcessError):
        return None


@functools.cache
def is_whole_repository() -> bool:
    """Whether all commits are here to be looked at: not in an archive, and not in a shallow clone."""
    top = git("rev-parse", "--show-toplevel")
    return top is not None and Path(top.decode().strip()) == TOP and git("rev-parse", "--is-shallow-repository") == b"false\n"


@contextmanager
def tree_of(commit: str, *, whole: bool = False) -> Iterator[Optional[Tree]]:
    """The crates of a commit, or all that it has, for a while; None where there is no such commit."""
    archive = git("archive", commit, *([] if whole else ["crates", "crates.txt"]))
    if archive is None:
        yield None
        return
    with tempfile.TemporaryDirectory(prefix="ifdb-edits-") as folder, tarfile.open(fileobj=io.BytesIO(archive)) as tar:
        read = [it for it in tar if whole or it.name == "crates.txt" or it.name.endswith((*SOURCES, ".edit", ASIDE))]
        tar.extractall(folder, read)
        yield Tree(Path(folder))


def changed_since(tree: Tree, before: Optional[Tree], crate: str) -> Optional[str]:
    """What of a crate and of those that judge its edits isn't as at a commit, if anything."""
    if before is None or not (before.crates / crate).is_dir():
        return "isn't in the history"
    if before.text(crate) != tree.text(crate):
        return "has another text"
    others = [name for name, said in tree.changes(crate).items() if before.changes(crate).get(name) != said]
    if others:
        return f"has no such edit: {', '.join(others)}"
    judges = tree.judges(crate)
    return gone_of(before.decided_in(judges) - tree.decided_in(judges))


def waits_since(tree: Tree, before: Tree, crate: str) -> Optional[str]:
    """What else of the crates that judge a crate's edits isn't as at a commit, if anything."""
    judges = tree.judges(crate)
    return gone_of(before.promises_of(judges) - tree.promises_of(judges))


def gone_of(gone: Iterable[str]) -> Optional[str]:
    """How it is told that these were otherwise; None where there are none."""
    first, *others = [*sorted(gone), ""]
    return f"had otherwise: {first.splitlines()[0]}" + (f" (and {len(others) - 1} more)" if others[1:] else "") if first else None


def in_history(commit: str) -> bool:
    return git("merge-base", "--is-ancestor", commit, "HEAD") is not None


def judged_notes() -> tuple[dict[str, str], dict[str, str]]:
    """The crates whose edits have to be tried again, and those whose edits wait for it, each with the reason."""
    tree, notes, our_kit = Tree(TOP), noted(), kit()
    crates = tree.with_aside()
    wrong = {crate: "no edit of it stands aside" for crate in notes.keys() - set(crates)}
    waiting = owed()
    by_commit: dict[str, list[str]] = {}
    for crate in crates:
        note = notes.get(crate)
        if crate in waiting:
            continue
        if note is None:
            wrong[crate] = "its edits weren't all refused yet"
        elif note.sum != tree.text(crate):
            wrong[crate] = "its text is another"
        elif our_kit is not None and note.kit != our_kit:
            wrong[crate] = f"they were refused by {note.kit}"
        else:
            by_commit.setdefault(note.commit, []).append(crate)
    for commit, of_it in by_commit.items() if is_whole_repository() else ():
        with tree_of(commit) as tree_then:
            before = tree_then if in_history(commit) else None
            for crate in of_it:
                change = changed_since(tree, before, crate)
                waits = None if change or before is None else waits_since(tree, before, crate)
                if change:
                    wrong[crate] = f"the commit {commit} {change}"
                elif waits:
                    waiting[crate] = f"the commit {commit} {waits}"
    return wrong, waiting


# ---- Tries


@contextmanager
def laid_out(crate: str, edits: Iterable[Path]) -> Iterator[Path]:
    """A folder that rt takes for this checkout, but that these edits of a crate have the names of tried ones there, and are its only ones."""
    with tempfile.TemporaryDirectory(prefix="ifdb-edits-") as folder:
        top = Path(folder)
        for name in ("crates.txt", "HANDLES"):
            (top / name).symlink_to(TOP / name)
        for other in (TOP / "crates").iterdir():  # (rt wants each crate's own folder to be here)
            here = top / "crates" / other.name
            here.mkdir(parents=True)
            for part in other.iterdir():
                if (other.name, part.name) != (crate, "must-fail"):
                    (here / part.name).symlink_to(part)
        (top / "crates" / crate / "must-fail").mkdir()
        for edit in edits:
            shutil.copyfile(edit, top / "crates" / crate / "must-fail" / edit.name.removesuffix(ASIDE))
        yield top


def told_alone(crate: str, edits: Iterable[Path]) -> dict[str, str]:
    """What rt says of edits of a crate over which all of it is tried, by the edit's name."""
    told = {}
    words = ["rt", "must-fail", crate]
    with laid_out(crate, edits) as top, subprocess.Popen(words, cwd=top, stdout=subprocess.PIPE, stderr=subprocess.STDOUT, text=True) as tried:
        assert tried.stdout
        for line in tried.stdout:
            print(line, end="", flush=True)
            found = TOLD.search(line)
            if found:
                told[found["edit"]] = found["said"]
    return told


@contextmanager
def copied_with(edit: Path) -> Iterator[Path]:
    """A copy of the crates with an edit of one, and of what was built of those that don't stand on that one."""
    tree, crate = Tree(TOP), edit.parts[-3]
    with tempfile.TemporaryDirectory(prefix="ifdb-edits-") as folder:
        top = Path(folder)
        for name in ("crates.txt", "HANDLES"):
            shutil.copyfile(TOP / name, top / name)
        for name in tree.uses:
            kept = PARTS if crate in [name, *tree.below(name)] else (*PARTS, BUILT)
            for part in kept:
                if (TOP / "crates" / name / part).is_dir():
                    shutil.copytree(TOP / "crates" / name / part, top / "crates" / name / part)
        for file, old, new in changes_of(edit):
            edited = top / "crates" / crate / file
            edited.write_text(edited.read_text().replace(old, new, 1))
        yield top


def checked(crate: Path, *words: str) -> tuple[int, list[str]]:
    """What rt comes to when it checks a crate, and what it says of errors, or at its end."""
    ran = subprocess.run(["rt", "check", *words], cwd=crate, stdout=subprocess.PIPE, stderr=subprocess.STDOUT, text=True)
    said = ran.stdout.splitlines() or ["rt said nothing"]
    return ran.returncode, [line for line in said if ERROR.match(line)] or said[-1:]


def told_above(edit: Path, place: Place) -> str:
    """What the proof of a function says of an edit, in rt's own words. Where it is of a crate above, the edited crate has to be proved."""
    crate = edit.parts[-3]
    with copied_with(edit) as top:
        own, said = checked(top / "crates" / crate) if crate != place.crate else (PROVED, [])
        if own != PROVED:
            return f"BAD EDIT: {crate} isn't proved with it: {said[0][:160]}"
        status, said = checked(top / "crates" / place.crate, "--only", place.function)
    if status == PROVED:
        return "NOT REFUSED: the function is still proved with this edit"
    if status != NOT_PROVED:
        return f"NOT TRIED: {said[0][:160]}"
    if any(map(UNREAD.match, said)):
        return f"BAD EDIT: the edited text can't be read: {said[0][:160]}"
    told = [line for line in said if not NAME_GONE.match(line)]
    return f"{IS_REFUSED}: {told[0][:160]}" if told else f"{IS_REFUSED} {BUT[1]} what the edit took away): {said[0][:160]}"


def told_of(crate: str) -> dict[str, str]:
    """What is said of each edit of a crate, by the edit's name."""
    edits = {edit: refused_at(edit) for edit in Tree(TOP).edits(crate)}
    alone = [edit for edit, place in edits.items() if place is None]
    told = told_alone(crate, alone) if alone else {}
    for edit, place in edits.items():
        if place:
            name = edit.name.removesuffix(ASIDE)
            told[name] = told_above(edit, place)
            print(f"must-fail {crate}/{name}: {told[name]} (at {place.crate} {place.function})", flush=True)
    return told


def let_through(told: dict[str, str], edits: Iterable[str]) -> list[str]:
    """The edits of which rt doesn't say that a contract refused them."""
    return [edit for edit in edits if not told.get(edit, "").startswith(IS_REFUSED) or any(but in told[edit] for but in BUT)]


def note_all(crate: str) -> bool:
    """Tries all edits of a crate, and notes its text if all are refused over one that the last commit has."""
    commit, kit_now = git("rev-parse", "--short=12", "HEAD"), kit()
    tree = Tree(TOP)
    note = Note(tree.text(crate), (commit or b"").decode().strip(), kit_now or "")
    with tree_of("HEAD") as last:
        change = changed_since(tree, last, crate)
    if change:
        print(f"{crate}: the last commit {change}; commit it first")
        return False
    names = [edit.name.removesuffix(ASIDE) for edit in tree.edits(crate)]
    left = let_through(told_of(crate), names)
    for edit in left:
        print(f"{crate}: no contract refused {edit}")
    if left or Tree(TOP).text(crate) != note.sum:
        return False
    write_note(crate, note)
    return True


def main(words: list[str]) -> int:
    tree = Tree(TOP)
    wrong, waiting = judged_notes()
    if not words:
        for crate, why in sorted((wrong | waiting).items()):
            print(f"{crate}{' waits' if crate in waiting else ''}: {why}")
        print(f"edits: of {len(tree.with_aside())} crates those of {len(wrong)} have to be tried again, and those of {len(waiting)} wait")
        return FAILED if wrong else 0
    crates = sorted(set(wrong | waiting) & set(tree.with_aside())) if words == ["--all"] else words
    unknown = [crate for crate in crates if not tree.edits(crate)]
    if unknown:
        print(f"no edits: {' '.join(unknown)}\n{__doc__}", file=sys.stderr)
        return WRONG_WORDS
    left = [crate for crate in crates if not note_all(crate)]
    print(f"edits: {len(crates) - len(left)} crates noted, {len(left)} not{': ' if left else ''}{' '.join(left)}")
    return FAILED if left else 0


if __name__ == "__main__":
    sys.exit(main(sys.argv[1:]))
