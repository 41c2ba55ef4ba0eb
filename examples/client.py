#!/usr/bin/env python3
"""A session with a served ifdb, meant to be copied: each request is a line, and each reply a line, but for rows.

    examples/client.py PORT [KEY]      the key of admin is 'admin' where none is given
"""

from __future__ import annotations

import socket
import sys
from typing import List, Optional, Union

Reply = Union[None, int, List[str], List[List[str]]]


class Refused(Exception):
    """The server refused a request: `number` and `name` of the error, as 13 and DuplicateKey, and the place of a Syntax error."""

    def __init__(self, text: str) -> None:
        super().__init__(text)
        words = text.split(" ")
        self.number, self.name = int(words[0]), words[1]
        self.place: Optional[int] = int(words[2]) if len(words) > 2 else None


def quoted(text: str) -> str:
    """A text as it stands in a request."""
    return "'" + text.replace("'", "''") + "'"


def unescaped(value: str) -> str:
    """A value of a row as it was before the reply wrote backslashes, tabs and carriage returns as two characters each."""
    parts = (part.replace("\\t", "\t").replace("\\r", "\r") for part in value.split("\\\\"))
    return "\\".join(parts)


class Session:
    """A connection, and the session that it is. After TooLong, TooMuch and BYE the server ends it."""

    def __init__(self, port: int, host: str = "127.0.0.1") -> None:
        self.link = socket.create_connection((host, port))
        self.link.setsockopt(socket.IPPROTO_TCP, socket.TCP_NODELAY, 1)
        self.lines = self.link.makefile("r", encoding="utf-8", newline="\n")

    def line(self) -> str:
        line = self.lines.readline()
        if not line.endswith("\n"):
            raise ConnectionError("the server ended the connection")
        return line[:-1]

    def ask(self, request: str) -> Reply:
        """Sends a request, and returns its reply: None for `OK`, a number of rows for `OK n`, the tags of a `LABEL`, or the
        rows, each a list of texts. Raises Refused for an `ERR`, and an OSError where the connection ended."""
        if "\n" in request:
            raise ValueError("a request is one line")
        self.link.sendall(request.encode() + b"\n")
        kind, _, rest = self.line().partition(" ")
        if kind == "ERR":
            raise Refused(rest)
        if kind == "ROWS":
            count, columns = map(int, rest.split(" "))
            return [[unescaped(it) for it in self.line().split("\t", columns - 1)] for _ in range(count)]
        if kind == "LABEL":
            return [tag for tag in rest.strip("()").split(",") if tag]
        return int(rest) if rest else None

    def close(self) -> None:
        """Ends the session. What a transaction that is still open wrote is dropped."""
        self.link.close()

    def __enter__(self) -> Session:
        return self

    def __exit__(self, *_: object) -> None:
        self.close()


def main(port: str, key: str = "admin") -> None:
    with Session(int(port)) as session:

        def show(request: str) -> None:
            try:
                print(f"{request}  ->  {session.ask(request)}")
            except Refused as refusal:
                print(f"{request}  ->  refused: {refusal}")

        show(f"HELLO admin KEY {quoted(key)}")
        show("CREATE TABLE note (id INT, body TEXT, PRIMARY KEY (id))")
        show("CREATE TAG mine")
        show("SET LABEL (mine)")
        show("BEGIN")
        show(f"INSERT INTO note VALUES (1, {quoted('it is a secret')})")
        show("COMMIT")
        show("SELECT id, body FROM note")
        show("INSERT INTO note VALUES (1, 'once more')")
        show("SHOW LABEL")
        show("SET LABEL ()")
        show("SELECT id, body FROM note")
        show("BYE")


if __name__ == "__main__":
    if len(sys.argv) not in (2, 3):
        sys.exit(__doc__)
    main(*sys.argv[1:])
