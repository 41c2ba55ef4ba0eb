"""A client of ifdb by PEP 249 (DB-API 2.0), in the standard library alone: copy this file beside your program.

    import ifdb

    with ifdb.connect(7070, "ann", "the key of ann") as connection:
        with connection.at("ann"):                    # what is read and written here is ann's secret
            cursor = connection.cursor()
            cursor.execute("INSERT INTO visit VALUES (?, ?)", (10, "cough"))
            cursor.execute("SELECT id, reason FROM visit WHERE id = ?", (10,))
            print(cursor.fetchall())                  # [(10, 'cough')]

A connection is one session of one principal, from its HELLO to its BYE. Beyond the standard it has a label, by
`Connection.label` and `Connection.at`. A `Pool` keeps connections of one principal, for threads to take and give back.

**Transactions.** Unless `Connection.autocommit` is set, the first SELECT, INSERT, UPDATE or DELETE opens one, and `commit` or
`rollback` ends it. Public changes (CREATE, GRANT, REVOKE) are steps of their own, and are refused inside a transaction.

**Parameters** are written `?` and stand for values, each an `int`, a `str`, or None, which is NULL. A name can't be one: `name`
says whether a text is a name.

**Kinds.** The server sends rows as texts, and no request tells the columns of a table. So whether a column is INT or TEXT is
known, in this order, by its item's form (LABEL OF is a text; counts, sums and arithmetic are numbers), by `Connection.columns`,
or by asking: `SELECT c + 0 FROM t WHERE 0 = 1` is a TypeMismatch exactly where c is TEXT. A connection asks that once for each
column, since tables never change. `SELECT *` doesn't tell its columns' names either, so it needs `columns`, in which a connection
enters what it creates; else it is a NotSupportedError.

Python 3.9 or later.
"""

from __future__ import annotations

import datetime
import re
import socket
import threading
import time
from collections.abc import Iterable, Iterator, Sequence, Set
from contextlib import contextmanager
from ssl import SSLContext, SSLWantReadError
from types import TracebackType
from typing import Dict, NamedTuple, Optional, Tuple, Type, Union

apilevel = "2.0"
threadsafety = 1  # threads may share the module, and no connection
paramstyle = "qmark"

LONGEST_LINE = 65_535
"""The most bytes of a request, without its newline. The server ends a connection that sends more."""

Value = Union[int, str, None]
"""A number, a text, or NULL."""
Row = Tuple[Value, ...]
Kind = Union[Type[int], Type[str]]
Columns = Dict[str, Dict[str, Kind]]
"""The columns of tables and views: those of each relation in their order, with their kinds."""

Description = Tuple[str, Kind, None, None, None, None, None]

# The standard's type objects. A column is a NUMBER or a STRING; the server has no other kinds.
STRING = str
NUMBER = int
BINARY = bytes
DATETIME = datetime.datetime
ROWID = type(None)

# The standard's constructors. What they make can't be a parameter: it is a NotSupportedError.
Date = datetime.date
Time = datetime.time
Timestamp = datetime.datetime
Binary = bytes


def DateFromTicks(ticks: float) -> datetime.date:
    """The day of a moment, as `time.time` tells it, where this program runs."""
    return Date(*time.localtime(ticks)[:3])


def TimeFromTicks(ticks: float) -> datetime.time:
    """The time of day of a moment, as `time.time` tells it, where this program runs."""
    return Time(*time.localtime(ticks)[3:6])


def TimestampFromTicks(ticks: float) -> datetime.datetime:
    """The day and time of a moment, as `time.time` tells it, where this program runs."""
    return Timestamp(*time.localtime(ticks)[:6])


# ---- Exceptions


class Warning(Exception):
    """Something to note. Nothing here raises it; the standard asks for the name."""


class Error(Exception):
    """What went wrong. Where the server refused a request, `number` and `name` are those of its error, as 13 and DuplicateKey,
    and `place` is that of a Syntax: a number of bytes from the beginning of the request as it was sent."""

    number: Optional[int] = None
    name: Optional[str] = None
    place: Optional[int] = None


class InterfaceError(Error):
    """This client is used wrongly, as a connection that is closed, or what answers isn't ifdb."""


class DatabaseError(Error):
    """Of the database. All that follow are such."""


class DataError(DatabaseError):
    """A value or a request is out of range or too long."""


class OperationalError(DatabaseError):
    """Not the program's doing: no connection, a conflict with another transaction, want of memory, a wrong key."""


class IntegrityError(DatabaseError):
    """A key that stands already, or a reference that would be broken."""


class InternalError(DatabaseError):
    """An error that no connection should get."""


class ProgrammingError(DatabaseError):
    """The request is wrong, or not allowed at this label, with this authority, or at this point of a transaction."""


class NotSupportedError(DatabaseError):
    """The server, or this client, has no such thing."""


_REFUSALS: Dict[int, Tuple[Type[DatabaseError], str]] = {
    1: (ProgrammingError, "the line is no request"),
    2: (ProgrammingError, "HELLO wasn't accepted yet"),
    3: (ProgrammingError, "HELLO was accepted already"),
    4: (OperationalError, "there is no such principal, or its key is another"),
    5: (ProgrammingError, "the name stands already"),
    6: (ProgrammingError, "a name stands for nothing of the kind wanted there"),
    7: (ProgrammingError, "a public change needs the empty label"),
    8: (ProgrammingError, "a tag that this needs isn't held"),
    9: (ProgrammingError, "a transaction is open"),
    10: (ProgrammingError, "no transaction is open"),
    11: (ProgrammingError, "kinds, numbers of columns or forms don't fit"),
    12: (ProgrammingError, "a row that would change has another label than the session"),
    13: (IntegrityError, "a row with this key is there"),
    14: (IntegrityError, "no row is there to refer to"),
    15: (DataError, "a result is no 64-bit number"),
    16: (ProgrammingError, "the session's label doesn't flow to that of a row that was written"),
    17: (OperationalError, "another transaction wrote the same key first"),
    18: (IntegrityError, "a row that was written refers to a row that is gone"),
    19: (IntegrityError, "a row that is left refers to a row that would be deleted"),
    20: (OperationalError, "the server had no memory for it"),
    21: (DataError, f"a request has more than {LONGEST_LINE:,} bytes"),
    22: (DataError, "the request is past a limit of the grammar"),
    23: (ProgrammingError, "there is no such grant"),
    24: (ProgrammingError, "a column of the primary key is assigned"),
    25: (ProgrammingError, "a parent is a plain tag"),
    26: (ProgrammingError, "a view stands where a table is wanted"),
    27: (ProgrammingError, "the owner of a view doesn't hold one of its tags"),
    28: (InternalError, "there is no such session"),
    29: (ProgrammingError, "the label doesn't flow to the ceiling, which is the clearance of who asks"),
    30: (ProgrammingError, "the label of a closure rose over its caller's"),
}
"""Each of the server's errors: which exception it is, and what it says."""

_ENDS_TRANSACTION = frozenset({16, 17, 18, 19})
"""The errors of a COMMIT that was judged, and so ended its transaction."""


def _refusal(number: int, name: str, place: Optional[int] = None) -> DatabaseError:
    """The exception for an error of the server's. One that isn't in the table is a DatabaseError."""
    kind, meaning = _REFUSALS.get(number, (DatabaseError, "an error that this client doesn't know"))
    where = "" if place is None else f" {place}"
    error = kind(f"ERR {number} {name}{where}: {meaning}")
    error.number, error.name, error.place = number, name, place
    return error


# ---- Requests

_NAME = re.compile(r"[A-Za-z_][A-Za-z0-9_]*")
_PIECE = re.compile(r"'[^']*'?|\?|[\r\n]")


def name(text: str) -> str:
    """The text, where it is a name of the language, so that nothing else can come into a request in its place. Raises
    ProgrammingError where it is none. A reserved word passes, and is a Syntax error of the request."""
    if not _NAME.fullmatch(text):
        raise ProgrammingError(f"{text!r} is no name: a letter or _, then letters, digits and _")
    return text


def literal(value: object) -> str:
    """A value as it stands in a request. Raises DataError for a number of more than 64 bits and for a text that no request can
    hold, and NotSupportedError for what is neither a number nor a text nor None, which is NULL."""
    if value is None:
        return "NULL"
    if isinstance(value, int):
        if not -(2**63) <= value < 2**63:
            raise DataError(f"{value} is no 64-bit number")
        return str(int(value))
    if isinstance(value, str):
        if "\n" in value:
            raise DataError("a text can't hold a newline")
        return "'" + value.replace("'", "''") + "'"
    raise NotSupportedError(f"a value is an int, a str or None, and not of {type(value).__name__}")


def request_of(operation: str, parameters: Sequence[object] = ()) -> str:
    """The request that an operation with these parameters is, in one line: each `?` outside a text is the literal of its parameter,
    set off by blanks so that it stays one token, and each end of a line outside a text is a blank. Raises ProgrammingError where
    there aren't as many parameters as places, and what `literal` does."""
    if isinstance(parameters, (str, bytes)) or not isinstance(parameters, Sequence):
        raise ProgrammingError("parameters are a list or a tuple")
    places = sum(piece[0] == "?" for piece in _PIECE.finditer(operation))
    if places != len(parameters):
        raise ProgrammingError(f"{places} parameters are wanted, and {len(parameters)} given")
    literals = map(literal, parameters)

    def put(piece: re.Match[str]) -> str:
        if piece[0] == "?":
            return f" {next(literals)} "
        if piece[0] in "\r\n":
            return " "
        if "\n" in piece[0]:
            raise DataError("a text can't hold a newline")
        return piece[0]

    return _PIECE.sub(put, operation)


def _encoded(request: str) -> bytes:
    """The bytes of a request's line."""
    if "\n" in request:
        raise DataError("a request is one line")
    try:
        line = request.encode()
    except UnicodeEncodeError as fault:
        raise DataError(f"a request can't hold {request[fault.start]!r}, which is half a character") from None
    if len(line) > LONGEST_LINE:
        raise _refusal(21, "TooLong")
    return line + b"\n"


def _first_word(request: str) -> str:
    """The word that a request begins with, in capitals, or nothing."""
    found = _NAME.match(request.lstrip(" \t"))
    return found[0].upper() if found else ""


# ---- Replies


class Done(NamedTuple):
    """`OK`"""


class Count(NamedTuple):
    """`OK n`: so many rows were inserted, updated or deleted."""

    rows: int


class Label(NamedTuple):
    """`LABEL (a,b)`: the tags, in the order in which they were made."""

    tags: Tuple[str, ...]


class Rows(NamedTuple):
    """`ROWS n c`, and the values of each row, None for NULL."""

    columns: int
    rows: Sequence[Tuple[Optional[str], ...]]


Reply = Union[Done, Count, Label, Rows]

_HEAD = re.compile(
    r"OK(?: (?P<count>[0-9]+))?"
    r"|LABEL \((?P<tags>[a-z0-9_,]*)\)"
    r"|ROWS (?P<rows>[0-9]+) (?P<columns>[0-9]+)"
    r"|ERR (?P<number>[0-9]+) (?P<name>[A-Za-z]+)(?: (?P<place>[0-9]+))?"
)
_ESCAPE = re.compile(r"\\(.?)", re.DOTALL)
_ESCAPED = {"\\": "\\", "t": "\t", "r": "\r"}


def _strange(line: str) -> InterfaceError:
    """What answers isn't ifdb."""
    return InterfaceError(f"this is no reply of ifdb: {line[:80]!r}")


def _unescaped(value: str) -> Optional[str]:
    """A value as it was before the reply wrote backslashes, tabs and carriage returns as two characters each, and NULL as `\\N`."""
    if value == r"\N":
        return None
    try:
        return _ESCAPE.sub(lambda escape: _ESCAPED[escape[1]], value) if "\\" in value else value
    except KeyError:
        raise _strange(value) from None


def _linked(port: int, host: str, timeout: Optional[float], ssl: Optional[SSLContext]) -> socket.socket:
    """A connection to a port, by TLS where there is a context for it."""
    link = socket.create_connection((host, port), timeout)
    try:
        link.setsockopt(socket.IPPROTO_TCP, socket.TCP_NODELAY, 1)
        return link if ssl is None else ssl.wrap_socket(link, server_hostname=host)
    except BaseException:
        link.close()
        raise


class Session:
    """A connection without the standard about it: a request is a line, and its reply a value.

    Whatever isn't a whole reply ends the connection, since no later reply could be told from the rest of this one.
    """

    def __init__(
        self, port: int, host: str = "127.0.0.1", timeout: Optional[float] = None, *, ssl: Optional[SSLContext] = None
    ) -> None:
        """Connects to a served ifdb. `timeout` is in seconds, for connecting and for each wait for more of a reply: also for the
        first reply of all, which `serve` gives once a worker is free. With `ssl` it speaks TLS, to what stands in front of
        the server; a context that checks names, as that of `ssl.create_default_context`, wants a certificate for `host`.

        Raises OperationalError where nobody serves there, or not by that TLS."""
        try:
            self._socket = _linked(port, host, timeout, ssl)
        except OSError as fault:
            raise OperationalError(f"no connection to port {port} of {host}: {fault}") from fault
        self._lines = self._socket.makefile("rb")
        self._timeout = timeout
        self.is_open = True
        self.in_transaction = False

    def ask(self, request: str) -> Reply:
        """Sends a request and returns its reply.

        Raises the exception of the server's error where it refuses; OperationalError where the connection ends or the time is
        over; InterfaceError where the session is over or the reply isn't one; DataError for what can't be sent, of which nothing
        was."""
        line = _encoded(request)
        if not self.is_open:
            raise InterfaceError("the connection is closed")
        told = self._exchange(line)
        self._note(_first_word(request), told)
        if isinstance(told, Error):
            raise told
        return told

    def has_ended(self) -> bool:
        """Whether the session is over, or the other side has ended it since the last reply. It sends nothing."""
        if self.is_open:
            self._socket.settimeout(0)
            try:
                self._socket.recv(1)  # (nothing comes unasked: this is the end, or no ifdb)
                self._drop()
            except (BlockingIOError, SSLWantReadError):
                self._socket.settimeout(self._timeout)
            except OSError:
                self._drop()
        return not self.is_open

    def close(self) -> None:
        """Ends the session by BYE, if it isn't over. What a transaction that is open wrote is dropped."""
        try:
            if self.is_open:
                self.ask("BYE")
        except Error:
            pass
        finally:
            self._drop()

    def _exchange(self, line: bytes) -> Union[Reply, DatabaseError]:
        """What is told to a line."""
        whole = False
        try:
            self._socket.sendall(line)
            told = self._read_reply()
            whole = True
        except socket.timeout as fault:
            raise OperationalError(f"no reply within {self._timeout} s; the connection is closed") from fault
        except OSError as fault:
            raise OperationalError(f"the connection ended: {fault}") from fault
        finally:
            if not whole:
                self._drop()
        return told

    def _note(self, word: str, told: Union[Reply, DatabaseError]) -> None:
        """Follows whether a transaction is open, and whether the session is."""
        if isinstance(told, DatabaseError):
            if word == "COMMIT" and told.number in _ENDS_TRANSACTION:
                self.in_transaction = False
            if told.number == 21:
                self._drop()
        elif word == "BEGIN":
            self.in_transaction = True
        elif word in ("COMMIT", "ROLLBACK"):
            self.in_transaction = False
        elif word == "BYE":
            self._drop()

    def _drop(self) -> None:
        self.is_open = self.in_transaction = False
        self._lines.close()
        self._socket.close()

    def _read_line(self) -> str:
        line = self._lines.readline()
        if not line.endswith(b"\n"):
            raise OperationalError("the server ended the connection" + (" within a reply" if line else ""))
        try:
            return line[:-1].decode()
        except UnicodeDecodeError:
            raise _strange(repr(line)) from None

    def _read_reply(self) -> Union[Reply, DatabaseError]:
        line = self._read_line()
        head = _HEAD.fullmatch(line)
        if head is None:
            raise _strange(line)
        if head["number"] is not None:
            return _refusal(int(head["number"]), head["name"], None if head["place"] is None else int(head["place"]))
        if head["rows"] is not None:
            columns = int(head["columns"])
            return Rows(columns, [self._read_row(columns) for _ in range(int(head["rows"]))])
        if head["tags"] is not None:
            return Label(tuple(filter(None, head["tags"].split(","))))
        return Done() if head["count"] is None else Count(int(head["count"]))

    def _read_row(self, columns: int) -> Tuple[Optional[str], ...]:
        line = self._read_line()
        values = line.split("\t")
        if len(values) != columns:
            raise _strange(line)
        return tuple(map(_unescaped, values))


# ---- What a request says of its columns. It is read behind the server, which has accepted it already.


class _Token(NamedTuple):
    """A token: its text, a word in small letters, and where it stands in the request."""

    text: str
    start: int
    end: int


class _Ref(NamedTuple):
    """A column that an item names."""

    source: Optional[str]
    column: str


class _Item(NamedTuple):
    """An item of a SELECT that isn't `*`: the name that it goes by, and its kind, or the column whose kind it has."""

    name: str
    kind: Union[Kind, _Ref]


class _Source(NamedTuple):
    """A table or a view of a SELECT, and the name that it goes by there."""

    relation: str
    alias: str


class _Select(NamedTuple):
    """What a SELECT says of its columns. An item that is None is `*`."""

    items: Sequence[Optional[_Item]]
    sources: Sequence[_Source]


_TOKEN = re.compile(r"'(?:[^']|'')*'|[A-Za-z_][A-Za-z0-9_]*|[0-9]+|<>|!=|<=|>=|[(),.=<>+\-*;]")
_ENDS_SOURCES = frozenset({"where", "group", "order", "with", ";"})
_KIND_OF_FORM: Dict[str, Kind] = {"count": int, "sum": int, "label": str}


def _tokens(request: str) -> list[_Token]:
    found = _TOKEN.finditer(request)
    return [_Token(it[0] if it[0][0] == "'" else it[0].lower(), it.start(), it.end()) for it in found]


def _members(tokens: Iterable[_Token]) -> list[list[_Token]]:
    """The members of a list, which have commas between them outside parentheses."""
    members: list[list[_Token]] = [[]]
    depth = 0
    for token in tokens:
        depth += (token.text == "(") - (token.text == ")")
        if token.text == "," and depth == 0:
            members.append([])
        else:
            members[-1].append(token)
    return members


def _ref(words: Sequence[str]) -> Optional[_Ref]:
    """The column that these words name, if they are nothing else."""
    if len(words) == 1 and _NAME.fullmatch(words[0]) and words[0] != "null":
        return _Ref(None, words[0])
    if len(words) == 3 and words[1] == ".":
        return _Ref(words[0], words[2])
    return None


def _kind_of_item(words: Sequence[str]) -> Union[Kind, _Ref]:
    """The kind of an item without its name and parentheses, or the column whose kind it has."""
    if words[0] in _KIND_OF_FORM:
        return _KIND_OF_FORM[words[0]]
    operand = words[1:] if words[0] in ("min", "max") else words
    return _ref(operand) or (str if operand[0][0] == "'" else int)


def _item(tokens: Sequence[_Token], request: str) -> Optional[_Item]:
    """An item. One that has no name goes by its own text."""
    words = [token.text for token in tokens if token.text not in ("(", ")")]
    if words == ["*"]:
        return None
    if words[-2:-1] == ["as"]:
        return _Item(words[-1], _kind_of_item(words[:-2]))
    ref = _ref(words)
    return _Item(ref.column if ref else request[tokens[0].start : tokens[-1].end], _kind_of_item(words))


def _select(request: str) -> _Select:
    """The SELECT that a request is, or that the view has which it makes."""
    tokens = _tokens(request)
    texts = [token.text for token in tokens]
    begin, middle = texts.index("select"), texts.index("from")
    end = next((at for at in range(middle, len(texts)) if texts[at] in _ENDS_SOURCES), len(texts))
    items = [_item(member, request) for member in _members(tokens[begin + 1 : middle])]
    sources = [_Source(member[0].text, member[-1].text) for member in _members(tokens[middle + 1 : end])]
    return _Select(items, sources)


def columns_of_table(request: str) -> Dict[str, Kind]:
    """The columns of the table that a request makes. The server must have accepted the request."""
    members = _members(_tokens(request)[4:])
    return {
        member[0].text: str if member[1].text == "text" else int
        for member in members
        if member[0].text not in ("primary", "foreign")
    }


def item_names(request: str) -> Optional[list[str]]:
    """The names that the columns of a SELECT go by: that behind AS, else the column's, else the item's own text. None where `*` is
    among the items. The server must have accepted the request."""
    items = _select(request).items
    names = [item.name for item in items if item is not None]
    return names if len(names) == len(items) else None


# ---- The standard's connection and cursor

_ON_ROWS = frozenset({"SELECT", "INSERT", "UPDATE", "DELETE"})


class _Way(NamedTuple):
    """How sessions of a principal begin."""

    port: int
    host: str
    timeout: Optional[float]
    ssl: Optional[SSLContext]
    hello: str

    def session(self, *requests: str) -> Session:
        """A session that has said HELLO, and then these requests."""
        session = Session(self.port, self.host, self.timeout, ssl=self.ssl)
        try:
            for request in (self.hello, *requests):
                session.ask(request)
        except BaseException:
            session.close()
            raise
        return session


def connect(
    port: int,
    user: str,
    key: str,
    host: str = "127.0.0.1",
    timeout: Optional[float] = None,
    *,
    ssl: Optional[SSLContext] = None,
    reconnect: bool = False,
    autocommit: bool = False,
    columns: Optional[Columns] = None,
) -> Connection:
    """Connects to a served ifdb as a principal, and says HELLO.

    `timeout` is in seconds, for connecting and for each wait for more of a reply. `serve` without a free worker answers later,
    so it counts for HELLO too. With `ssl` it speaks TLS, as `Session` does. With `reconnect`, if the server ended the connection
    while nobody asked and no transaction was open, the next request goes over a new one, at the same label: nothing of it was sent
    before. A connection that is lost within a request is closed all the same, since nobody knows what became of that. `columns`
    may be shared by connections to one server, which then needn't ask for kinds.

    Raises OperationalError where nobody serves there and where the key is wrong; ProgrammingError where `user` is no name."""
    way = _Way(port, host, timeout, ssl, f"HELLO {name(user)} KEY {literal(key)}")
    return Connection(way.session(), user.lower(), autocommit, {} if columns is None else columns, way if reconnect else None)


class Connection:
    """A session of one principal. `connect` makes it.

    As a context manager it commits at the end of the block, or rolls back where the block raised, and closes in each case."""

    Warning = Warning
    Error = Error
    InterfaceError = InterfaceError
    DatabaseError = DatabaseError
    DataError = DataError
    OperationalError = OperationalError
    IntegrityError = IntegrityError
    InternalError = InternalError
    ProgrammingError = ProgrammingError
    NotSupportedError = NotSupportedError

    user: str
    """The principal's name."""
    autocommit: bool
    """Whether each statement is a step of its own. Where it isn't, the first statement on rows opens a transaction. A transaction
    that is open when this is set goes on to its commit or rollback."""
    columns: Columns
    """What is known of tables and views: write into it, or hand it to `connect`, what the program knows."""

    def __init__(
        self, session: Session, user: str, autocommit: bool, columns: Columns, way: Optional[_Way] = None
    ) -> None:
        """A connection over a session that has said HELLO as `user`. It is made anew only where there is a way."""
        self.user = user
        self.autocommit = autocommit
        self.columns = columns
        self._session = session
        self._way = way
        self._labelling: Tuple[str, ...] = ()
        """The last SET LABEL, if one was accepted."""
        self._kinds: Dict[Tuple[Tuple[str, ...], str], Kind] = {}

    @property
    def is_open(self) -> bool:
        """Whether the session goes on. It doesn't after `close`, and after a fault of the connection."""
        return self._session.is_open

    @property
    def in_transaction(self) -> bool:
        """Whether a transaction is open."""
        return self._session.in_transaction

    def cursor(self) -> Cursor:
        """A cursor. Those of one connection share its transaction and its label."""
        self._check()
        return Cursor(self)

    def commit(self) -> None:
        """Ends the transaction, if one is open, and keeps what it wrote.

        It may be refused: by 16 CommitLabel (ProgrammingError) where the label is above a row that was written, so that what was
        read since can't tell of itself; by 17 Conflict (OperationalError), after which the transaction may be done again; by
        BrokenReference and StillReferenced (IntegrityError). The transaction is then over and nothing of it is kept. After
        20 OutOfMemory it is still open."""
        self._check()
        if self.in_transaction:
            self._session.ask("COMMIT")

    def rollback(self) -> None:
        """Ends the transaction, if one is open, and keeps nothing of what it wrote. The label stays."""
        self._check()
        if self.in_transaction:
            self._session.ask("ROLLBACK")

    def close(self) -> None:
        """Ends the session. What a transaction that is open wrote is dropped."""
        self._session.close()

    def __enter__(self) -> Connection:
        self._check()
        return self

    def __exit__(
        self, kind: Optional[Type[BaseException]], fault: Optional[BaseException], trace: Optional[TracebackType]
    ) -> None:
        try:
            if kind is None and self.is_open:
                self.commit()
        finally:
            self.close()

    @property
    def label(self) -> Set[str]:
        """The session's label, which the server is asked for. Setting it raises the label freely, and lowers it where the principal
        holds each tag that is given up: else it is refused by 8 NoAuthority (ProgrammingError) and stays."""
        reply = self._tell("SHOW LABEL")
        assert isinstance(reply, Label)
        return frozenset(reply.tags)

    @label.setter
    def label(self, tags: Set[str]) -> None:
        if isinstance(tags, str):
            raise ProgrammingError("a label is a set of tags, and no text")
        self._tell(f"SET LABEL ({', '.join(name(tag) for tag in sorted(tags))})")

    @contextmanager
    def at(self, *tags: str) -> Iterator[None]:
        """Raises the label by these tags for a block, and takes it back to what it was behind the block.

        Where the principal lacks authority for that, the end of the block raises ProgrammingError with 8 NoAuthority, and the label
        stays raised: the session has seen what it may not tell below."""
        before = self.label
        self.label = before | set(tags)
        try:
            yield
        finally:
            if self.is_open:
                self._lower(before)

    def _lower(self, before: Set[str]) -> None:
        try:
            self.label = before
        except ProgrammingError as refusal:
            if refusal.name != "NoAuthority":
                raise
            now, then = (f"{{{','.join(sorted(label))}}}" for label in (self.label, before))
            refusal.args = (f"{refusal}: {self.user} may not lower the label from {now} to {then}, so it stays",)
            raise

    def _check(self) -> None:
        if not self.is_open:
            raise InterfaceError("the connection is closed")

    def _ask(self, request: str) -> Reply:
        """Asks a request of the program's, in a transaction if it is to be."""
        word = _first_word(request)
        if word in _ON_ROWS and not self.autocommit and not self.in_transaction:
            self._tell("BEGIN")
        reply = self._tell(request)
        if word == "CREATE":
            self._enter(request)
        return reply

    def _tell(self, request: str) -> Reply:
        """Asks a request, over a new session where there is a way and the old one ended while nobody asked."""
        if self._way is not None and self.is_open and not self.in_transaction and self._session.has_ended():
            self._kinds.clear()
            self._session = self._way.session(*self._labelling)
        reply = self._session.ask(request)
        if _first_word(request) == "SET":
            self._labelling = (request,)
        return reply

    def _enter(self, request: str) -> None:
        """Enters the columns of the table or view that was made."""
        made, relation = (token.text for token in _tokens(request)[1:3])
        if made == "table":
            self.columns[relation] = columns_of_table(request)
        elif made == "view":
            self.columns[relation] = dict(self._described(request))

    def _described(self, request: str) -> list[Tuple[str, Kind]]:
        """The names and kinds of a SELECT's columns. It must have been accepted."""
        items, sources = _select(request)
        described: list[Tuple[str, Kind]] = []
        for item in items:
            if item is None:
                for source in sources:
                    described += self._all_of(source.relation)
            else:
                kind = item.kind
                described.append((item.name, self._kind(kind, sources) if isinstance(kind, _Ref) else kind))
        return described

    def _all_of(self, relation: str) -> Iterable[Tuple[str, Kind]]:
        if relation not in self.columns:
            raise NotSupportedError(
                f"the server doesn't tell which columns {relation} has: name them in place of *, or enter them in"
                f" the connection's columns, as connection.columns['{relation}'] = {{'id': int, 'body': str}}"
            )
        return self.columns[relation].items()

    def _kind(self, ref: _Ref, sources: Iterable[_Source]) -> Kind:
        """The kind of a column of these sources, of which exactly one has it."""
        among = tuple(it.relation for it in sources if ref.source in (None, it.alias))
        for relation in among:
            if ref.column in self.columns.get(relation, ()):
                return self.columns[relation][ref.column]
        place = (among, ref.column)
        if place not in self._kinds:
            self._kinds[place] = self._asked_kind(among, ref.column)
        return self._kinds[place]

    def _asked_kind(self, among: Iterable[str], column: str) -> Kind:
        """What arithmetic with the column says of its kind. The condition holds for no row, so no row is looked at."""
        try:
            self._tell(f"SELECT {column} + 0 FROM {', '.join(among)} WHERE 0 = 1")
        except ProgrammingError as refusal:
            if refusal.name != "TypeMismatch":
                raise
            return str
        return int


class Cursor:
    """What a connection is asked through, and where the rows of its last SELECT are. `Connection.cursor` makes it. As a context
    manager it closes behind the block."""

    arraysize = 1
    """How many rows `fetchmany` gives where it isn't told."""
    lastrowid = None
    """None: rows have no numbers."""

    connection: Connection
    description: Optional[Sequence[Description]]
    """Of each column of the last SELECT its name and its kind, NUMBER or STRING, and five times None; None where the last request
    was no SELECT. A column goes by the name behind AS, else by the column's, else by the item's own text."""
    rowcount: int
    """How many rows the last request gave, or wrote; of `executemany` in all. -1 where it did neither."""
    request: Optional[str]
    """The last request as it was sent, in which the place of a Syntax counts bytes."""

    def __init__(self, connection: Connection) -> None:
        self.connection = connection
        self.description = None
        self.rowcount = -1
        self.request = None
        self._rows: Optional[list[Row]] = None
        self._next = 0
        self._is_open = True

    def execute(self, operation: str, parameters: Sequence[object] = ()) -> Cursor:
        """Asks one request, with these parameters in the places of its `?`. It may stand in several lines. Returns the cursor.

        Raises the exception of the server's error where it refuses: the request then changed nothing, and a transaction stays
        open, but at a COMMIT that was judged."""
        self._check()
        self._clear()
        self.request = request_of(operation, parameters)
        reply = self.connection._ask(self.request)
        if isinstance(reply, Count):
            self.rowcount = reply.rows
        elif isinstance(reply, Rows):
            self._take(reply)
        return self

    def executemany(self, operation: str, parameters: Iterable[Sequence[object]]) -> Cursor:
        """Asks the operation once with each of these parameters. Where one is refused the earlier ones have been done: take them
        back by `rollback`, unless `autocommit` is set."""
        self._check()
        self._clear()
        total = 0
        for given in parameters:
            self.execute(operation, given)
            total += max(self.rowcount, 0)
        self.rowcount = total
        return self

    def fetchone(self) -> Optional[Row]:
        """The next row, or None behind the last."""
        rows = self.fetchmany(1)
        return rows[0] if rows else None

    def fetchmany(self, size: Optional[int] = None) -> list[Row]:
        """The next rows, as many as `size` or `arraysize` says while there are some."""
        return self._fetch(max(0, self.arraysize if size is None else size))

    def fetchall(self) -> list[Row]:
        """All rows that are left."""
        return self._fetch(len(self._rows or ()))

    def __iter__(self) -> Cursor:
        return self

    def __next__(self) -> Row:
        row = self.fetchone()
        if row is None:
            raise StopIteration
        return row

    def close(self) -> None:
        """Lets the rows go. The connection goes on."""
        self._clear()
        self._is_open = False

    def __enter__(self) -> Cursor:
        return self

    def __exit__(
        self, kind: Optional[Type[BaseException]], fault: Optional[BaseException], trace: Optional[TracebackType]
    ) -> None:
        self.close()

    def setinputsizes(self, sizes: Sequence[object]) -> None:
        """Does nothing, as the standard allows."""

    def setoutputsize(self, size: int, column: Optional[int] = None) -> None:
        """Does nothing, as the standard allows."""

    def _check(self) -> None:
        if not self._is_open:
            raise InterfaceError("the cursor is closed")

    def _clear(self) -> None:
        self.description, self.rowcount, self.request, self._rows, self._next = None, -1, None, None, 0

    def _take(self, reply: Rows) -> None:
        """Takes the rows of a SELECT, each value by its column's kind, but NULL, which is None."""
        assert self.request is not None
        described = self.connection._described(self.request)
        kinds = [kind for _, kind in described]
        if len(kinds) != reply.columns:
            raise InterfaceError(f"{reply.columns} columns came, and {len(kinds)} were to come: see the connection's columns")
        try:
            self._rows = [
                tuple(None if value is None else kind(value) for kind, value in zip(kinds, row)) for row in reply.rows
            ]
        except ValueError as fault:
            raise InterfaceError(f"a column isn't what the connection's columns say: {fault}") from None
        self.description = [(column, kind, None, None, None, None, None) for column, kind in described]
        self.rowcount = len(self._rows)

    def _fetch(self, count: int) -> list[Row]:
        self._check()
        if self._rows is None:
            raise ProgrammingError("there are no rows: the last request was no SELECT")
        begin = self._next
        self._next += count
        return self._rows[begin : self._next]


# ---- A pool


class _Over(Session):
    """A session that is over: what a connection has once it was given back."""

    def __init__(self) -> None:
        self.is_open = self.in_transaction = False

    def close(self) -> None:
        """Does nothing."""


class Pool:
    """Connections of one principal, which threads take and give back:

        with ifdb.Pool(7070, "ann", "the key of ann", size=4) as pool:
            with pool.connection() as connection:         # nobody else has it
                connection.cursor().execute("INSERT INTO visit VALUES (?, ?)", (10, "cough"))

    Before a connection goes back it is rolled back, and its label set to the empty one. Where the principal may not lower the label
    so far, the connection is closed: it has read what whoever takes it next must not tell. As a context manager the pool closes
    behind the block."""

    def __init__(
        self,
        port: int,
        user: str,
        key: str,
        host: str = "127.0.0.1",
        timeout: Optional[float] = None,
        *,
        size: int = 4,
        ssl: Optional[SSLContext] = None,
        autocommit: bool = False,
        columns: Optional[Columns] = None,
    ) -> None:
        """A pool of at most `size` connections at a time, each made by `connect` once it is wanted. Each stays open while
        nobody has it, and holds a worker of `serve`. Raises ProgrammingError where `user` is no name or `size` isn't positive."""
        if size < 1:
            raise ProgrammingError(f"a pool of {size} connections has none")
        self.user = user.lower()
        self._way = _Way(port, host, timeout, ssl, f"HELLO {name(user)} KEY {literal(key)}")
        self._size = size
        self._autocommit = autocommit
        self._columns: Columns = {} if columns is None else columns
        self._kinds: Dict[Tuple[Tuple[str, ...], str], Kind] = {}
        self._changed = threading.Condition()
        """Guards what follows; told of each connection that is given back, and of the end."""
        self._free: list[Session] = []
        self._taken = 0
        self._is_open = True

    @contextmanager
    def connection(self) -> Iterator[Connection]:
        """A connection for a block, outside a transaction and at the empty label. The end of the block commits, or rolls back where
        the block raised, and gives the connection back; from then on it is closed to who had it.

        It waits for a free one, at most the `timeout` of the pool. Raises OperationalError where none came in that time and where
        `connect` does, and InterfaceError where the pool is closed. What a commit may raise, the end of the block raises."""
        connection = Connection(self._take(), self.user, self._autocommit, self._columns, self._way)
        connection._kinds = self._kinds  # (so that each kind is asked for once)
        try:
            yield connection
            if connection.is_open:
                connection.commit()
        finally:
            self._give(connection)

    def close(self) -> None:
        """Closes the connections that nobody has, and the others once they are given back."""
        with self._changed:
            self._is_open = False
            free, self._free = self._free, []
            self._changed.notify_all()
        for session in free:
            session.close()

    def __enter__(self) -> Pool:
        return self

    def __exit__(
        self, kind: Optional[Type[BaseException]], fault: Optional[BaseException], trace: Optional[TracebackType]
    ) -> None:
        self.close()

    def _take(self) -> Session:
        """A session that nobody else has: one that was given back and goes on, else a new one."""
        with self._changed:
            is_in_time = self._changed.wait_for(self._has_room, self._way.timeout)
            if not self._is_open:
                raise InterfaceError("the pool is closed")
            if not is_in_time:
                raise OperationalError(f"none of {self._size} connections was free within {self._way.timeout} s")
            self._taken += 1
            session = self._free.pop() if self._free else None
        try:
            return self._way.session() if session is None or session.has_ended() else session
        except BaseException:
            self._forget()
            raise

    def _has_room(self) -> bool:
        return not self._is_open or bool(self._free) or self._taken < self._size

    def _give(self, connection: Connection) -> None:
        """Takes a connection's session back, and closes it unless another may have it."""
        session, connection._session = connection._session, _Over()
        is_clear = False
        try:
            is_clear = _is_cleared(session)
        finally:
            if not is_clear:
                session.close()
            self._forget(session if is_clear else None)

    def _forget(self, session: Optional[Session] = None) -> None:
        """Notes that a session is no longer taken: it is free, if it goes on."""
        with self._changed:
            self._taken -= 1
            keeps = session is not None and self._is_open
            if session is not None and keeps:
                self._free.append(session)
            self._changed.notify()
        if session is not None and not keeps:
            session.close()


def _is_cleared(session: Session) -> bool:
    """Whether a session could be rolled back and come down to the empty label."""
    try:
        if session.in_transaction:
            session.ask("ROLLBACK")
        session.ask("SET LABEL ()")
    except Error:
        return False
    return True
