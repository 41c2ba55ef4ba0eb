"""Rows of a served ifdb as CSV, there and back.

A text stands in quotes, a number without, and NULL is nothing at all, so a text of no characters is told from it. No text holds the end
of a line, so a row is one line. What is read may have texts without quotes too, and lines that end as Windows ends them.
"""

from __future__ import annotations

import re
from collections.abc import Iterable, Iterator, Sequence
from typing import Callable, Optional, Tuple

import ifdb

MOST_ROWS = 100
"""How many rows are inserted at once. The server takes 256, in a line that isn't too long."""

_FIELD = re.compile(r'"((?:[^"]|"")*)"|([^",]*)')


class BadLine(Exception):
    """A line that holds no row."""


def written(values: Iterable[ifdb.Value]) -> str:
    """A row as a line, without its end."""

    def field(value: ifdb.Value) -> str:
        if value is None:
            return ""
        return str(value) if isinstance(value, int) else '"' + value.replace('"', '""') + '"'

    return ",".join(map(field, values))


def fields_of(line: str) -> list[Optional[str]]:
    """The fields of a line, with its end or without, and None for each that is nothing at all. Raises BadLine where a quote isn't
    closed, or stands within a field."""
    line = line.removesuffix("\n").removesuffix("\r")
    fields: list[Optional[str]] = []
    at = -1
    while at < len(line):
        found = _FIELD.match(line, at + 1)
        assert found is not None  # (a field may be nothing)
        fields.append((found[2] or None) if found[1] is None else found[1].replace('""', '"'))
        at = found.end()
        if at < len(line) and line[at] != ",":
            raise BadLine("a quote isn't closed on its line, or stands within a value")
    return fields


def value_of(field: Optional[str], kind: ifdb.Kind) -> ifdb.Value:
    """What a field is in a column of a kind. Raises BadLine where it is no number and should be."""
    if field is None:
        return None
    try:
        return kind(field)
    except ValueError:
        raise BadLine(f"{field!r} is no number") from None


class Import:
    """The rows of a CSV file on their way into a table."""

    line: int
    """The line that is looked at, or whose row was refused; 0 once all rows were inserted."""

    def __init__(self, session: ifdb.Session, connection: ifdb.Connection, lines: Iterable[str], table: str) -> None:
        """`lines` are those of the file, of which the first names the columns. `connection` is one over the session, and tells their
        kinds. Raises BadLine where the first line is none, and ifdb.Error where a name is none or the server refuses it."""
        self.line = 1
        self._session = session
        self._lines = iter(lines)
        fields = fields_of(next(self._lines, "").removeprefix("\ufeff"))
        columns = ", ".join(ifdb.name((field or "").strip()) for field in fields)
        asked = connection.cursor().execute(f"SELECT {columns} FROM {ifdb.name(table)} WHERE 0 = 1")
        self._kinds = [kind for _, kind, *_ in asked.description or ()]
        self._begin = f"INSERT INTO {table} ({columns}) VALUES "

    def run(self, tell: Callable[[int], None]) -> int:
        """Inserts the rows in one transaction, and returns how many there were; `tell` is told how many there are so far. Where the
        session has a transaction open it is that one, in which the rows before one that is refused stay; else all rows are inserted,
        or none. Raises BadLine and ifdb.Error."""
        is_own = not self._session.in_transaction
        if is_own:
            self._session.ask("BEGIN")
        try:
            total = 0
            for batch in self._batches():
                self._insert(batch)
                total += len(batch)
                tell(total)
            self.line = 0
            if is_own:
                self._session.ask("COMMIT")
            return total
        finally:
            if is_own and self._session.in_transaction:
                self._session.ask("ROLLBACK")

    def _rows(self) -> Iterator[Tuple[int, str]]:
        """The line of each row, and the row as it stands in a request."""
        for line, text in enumerate(self._lines, 2):
            self.line = line
            fields = fields_of(text)
            if fields == [None]:
                continue  # (an empty line)
            if len(fields) != len(self._kinds):
                raise BadLine(f"{len(fields)} values, and {len(self._kinds)} columns")
            yield line, f"({', '.join(map(ifdb.literal, map(value_of, fields, self._kinds)))})"

    def _batches(self) -> Iterator[Sequence[Tuple[int, str]]]:
        """The rows in batches whose request isn't too long, unless that of one row is."""
        batch: list[Tuple[int, str]] = []
        length = len(self._begin)
        for line, row in self._rows():
            size = len(row.encode(errors="surrogateescape")) + len(", ")
            if batch and (len(batch) == MOST_ROWS or length + size > ifdb.LONGEST_LINE):
                yield batch
                batch, length = [], len(self._begin)
            batch.append((line, row))
            length += size
        if batch:
            yield batch

    def _insert(self, batch: Sequence[Tuple[int, str]]) -> None:
        """Inserts some rows. Where they are refused, it does so one by one, up to the row for which they are."""
        try:
            self._session.ask(self._begin + ", ".join(row for _, row in batch))
        except ifdb.DatabaseError:
            if not self._session.is_open:
                raise
            for self.line, row in batch:
                self._session.ask(self._begin + row)
            raise
