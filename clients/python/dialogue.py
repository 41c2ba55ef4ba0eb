#!/usr/bin/env python3
"""Plays stored dialogues over connections to the built program, each with a server of its own, and compares the replies.

    clients/python/dialogue.py [--update] FILE..

A dialogue has lines `NAME> REQUEST`, each followed by the lines of its reply; empty lines and those that begin with # stand for
themselves. Each name is a connection, which is made at its first line. No line of a reply may read as one of somebody's.
`--update` writes what was replied into the files in place of comparing. The status is 1 where replies differ, and 0 else.
"""

from __future__ import annotations

import argparse
import difflib
import pathlib
import re
import sys
from typing import Callable, Dict, List, Optional, Sequence

import program

Ask = Callable[[str, str], Sequence[str]]
"""Has somebody, by name, ask a line, and returns the lines of the reply."""

_ASKED = re.compile(r"(?P<name>[a-z][a-z0-9]*)> (?P<line>.*)")


class Connections:
    """Connections to one server by name."""

    def __init__(self, port: int) -> None:
        self._port = port
        self._sessions: Dict[str, program.Session] = {}

    def ask(self, name: str, line: str) -> List[str]:
        if name not in self._sessions:
            self._sessions[name] = program.connected(self._port)
        return self._sessions[name].ask(line)

    def close(self) -> None:
        for session in self._sessions.values():
            session.close()


def played(dialogue: str, ask: Ask) -> str:
    """The dialogue with the replies that come now."""
    lines: List[str] = []
    is_reply = False
    for line in dialogue.split("\n"):
        asked = _ASKED.fullmatch(line)
        if asked:
            lines += [line, *ask(asked["name"], asked["line"])]
            is_reply = True
        elif not line or line.startswith("#"):
            lines.append(line)
            is_reply = False
        elif not is_reply:
            raise ValueError(f"this is neither a line of somebody's nor part of a reply: {line!r}")
    return "\n".join(lines)


def differs(path: pathlib.Path, ask: Ask, *, update: bool = False) -> bool:
    """Plays a stored dialogue, and prints how its replies differ, if they do, or stores them."""
    stored = path.read_text(encoding="utf-8")
    now = played(stored, ask)
    if update:
        path.write_text(now, encoding="utf-8")
        return False
    sys.stdout.writelines(
        line + "\n"
        for line in difflib.unified_diff(stored.split("\n"), now.split("\n"), f"{path}, stored", f"{path}, played", lineterm="")
    )
    return stored != now


def main(words: Optional[Sequence[str]] = None) -> int:
    parser = argparse.ArgumentParser(description=__doc__, formatter_class=argparse.RawDescriptionHelpFormatter)
    parser.add_argument("files", nargs="+", type=pathlib.Path, metavar="FILE")
    parser.add_argument("--update", action="store_true", help="stores the replies")
    options = parser.parse_args(words)
    differing = 0
    for path in options.files:
        with program.Server(program.serving(workers=16)) as server:
            connections = Connections(server.port)
            differing += differs(path, connections.ask, update=options.update)
            connections.close()
    print(f"{len(options.files)} dialogues played, {differing} differ")
    return 1 if differing else 0


if __name__ == "__main__":
    sys.exit(main())
