"""Tests of the client: framing over a scripted connection, and all else over the built program.

    python3 -m unittest discover -s clients/python        IFDB names another program than this repository's
"""

from __future__ import annotations

import datetime
import io
import itertools
import socket
import sys
import unittest
from typing import Any, Callable, Iterable, List, Set, Tuple, Union
from unittest import mock

import ifdb
import program

Piece = Union[bytes, OSError]


class Pieces(io.RawIOBase):
    """A connection's reading side, which gives one piece a read, raises those that are faults, and is then at its end."""

    def __init__(self, pieces: Iterable[Piece]) -> None:
        self._pieces = iter(pieces)

    def readable(self) -> bool:
        return True

    def readinto(self, room: Any) -> int:
        piece = next(self._pieces, b"")
        if isinstance(piece, OSError):
            raise piece
        room[: len(piece)] = piece
        return len(piece)


class Scripted:
    """A socket whose other side says these pieces, whatever it is sent."""

    def __init__(self, pieces: Iterable[Piece]) -> None:
        self._pieces = pieces
        self.sent = b""

    def setsockopt(self, *option: int) -> None:
        pass

    def makefile(self, mode: str) -> io.BufferedReader:
        return io.BufferedReader(Pieces(self._pieces))

    def sendall(self, line: bytes) -> None:
        self.sent += line

    def close(self) -> None:
        pass


def scripted(*pieces: Piece) -> Tuple[ifdb.Session, Scripted]:
    """A session whose server says these pieces."""
    link = Scripted(pieces)
    with mock.patch("socket.create_connection", return_value=link):
        return ifdb.Session(1), link


def connection_to(*pieces: Piece) -> ifdb.Connection:
    """A connection whose server says these pieces behind the reply to HELLO."""
    with mock.patch("socket.create_connection", return_value=Scripted((b"OK\n", *pieces))):
        return ifdb.connect(1, "ann", "a")


REPLIES: List[Tuple[bytes, ifdb.Reply]] = [
    (b"OK\n", ifdb.Done()),
    (b"OK 0\n", ifdb.Count(0)),
    (b"OK 256\n", ifdb.Count(256)),
    (b"LABEL ()\n", ifdb.Label(())),
    (b"LABEL (a)\n", ifdb.Label(("a",))),
    (b"LABEL (b,a_1)\n", ifdb.Label(("b", "a_1"))),
    (b"ROWS 0 3\n", ifdb.Rows(3, [])),
    (b"ROWS 1 1\n\n", ifdb.Rows(1, [("",)])),
    (b"ROWS 2 2\n-7\tOK\n8\tERR 1 Syntax 0\n", ifdb.Rows(2, [("-7", "OK"), ("8", "ERR 1 Syntax 0")])),
    ("ROWS 1 2\n\u00e9\U0001f600\u2028\x0b\x85\t\0\n".encode(), ifdb.Rows(2, [("\u00e9\U0001f600\u2028\x0b\x85", "\0")])),
    (rb"ROWS 1 1" + b"\n" + rb"\\t\t\r\\\\r" + b"\n", ifdb.Rows(1, [("\\t\t\r\\\\r",)])),
    (rb"ROWS 1 4" + b"\n" + b"\\N\t\\\\N\tN\t" + b"\n", ifdb.Rows(4, [(None, "\\N", "N", "")])),
]


ENDS: List[List[Piece]] = [[], [ConnectionResetError()]]


class Framing(unittest.TestCase):
    """A reply is told by its bytes alone, and whatever is none ends the connection."""

    def test_each_reply_is_read_however_it_is_cut(self) -> None:
        for text, reply in REPLIES:
            cuts = [[text[:at], text[at:]] for at in range(1, len(text))] + [[text[at : at + 1] for at in range(len(text))]]
            for pieces in cuts:
                session, link = scripted(*pieces, b"OK 5\n")
                with self.subTest(pieces=pieces):
                    self.assertEqual(session.ask("SHOW LABEL"), reply)
                    self.assertEqual(session.ask("SHOW LABEL"), ifdb.Count(5))
                    self.assertEqual(link.sent, b"SHOW LABEL\n" * 2)

    def test_two_replies_may_come_in_one_piece(self) -> None:
        session, _ = scripted(b"".join(text for text, _ in REPLIES))
        for _, reply in REPLIES:
            self.assertEqual(session.ask("SHOW LABEL"), reply)

    def test_a_server_that_ends_anywhere_in_a_reply(self) -> None:
        for text, _ in REPLIES:
            for at, end in itertools.product(range(len(text)), ENDS):
                session, _ = scripted(text[:at], *end)
                with self.subTest(begin=text[:at], end=end):
                    with self.assertRaisesRegex(ifdb.OperationalError, "the server ended|the connection ended"):
                        session.ask("SHOW LABEL")
                    self.assertFalse(session.is_open)
                    with self.assertRaisesRegex(ifdb.InterfaceError, "closed"):
                        session.ask("SHOW LABEL")

    def test_a_reply_that_is_late_ends_the_connection(self) -> None:
        session, _ = scripted(b"ROWS 1 1\n", socket.timeout())
        with self.assertRaisesRegex(ifdb.OperationalError, "no reply within"):
            session.ask("SHOW LABEL")
        self.assertFalse(session.is_open)

    def test_what_is_no_reply_ends_the_connection(self) -> None:
        strange = [
            b"\n", b"ok\n", b"OK \n", b"OK -1\n", b"OK 1 2\n", b"OK\r\n", b"LABEL a\n", b"LABEL (a, b)\n", b"ROWS 1\n", b"ERR 13\n",
            b"HTTP/1.1 400 Bad Request\n", b"\xff\n", b"ROWS 1 2\na\n", b"ROWS 1 1\na\tb\n", b"ROWS 1 1\n\\x\n", b"ROWS 1 1\n\\\n",
            b"ROWS 1 1\n\\Na\n", b"ROWS 1 1\na\\N\n",
        ]  # fmt: skip
        for text in strange:
            session, _ = scripted(text, b"OK\n" * 4)
            with self.subTest(text=text):
                with self.assertRaisesRegex(ifdb.InterfaceError, "no reply of ifdb"):
                    session.ask("SHOW LABEL")
                self.assertFalse(session.is_open)

    def test_what_cant_be_sent_is_refused_before_anything_is(self) -> None:
        session, link = scripted(b"OK\n")
        for request in ("SHOW\nLABEL", "SELECT '\ud800'", "x" * 65_536, "\u00e9" * 32_768):
            with self.subTest(request=request[:20]), self.assertRaises(ifdb.DataError):
                session.ask(request)
        self.assertEqual(link.sent, b"")
        self.assertEqual(session.ask("x" * 65_535), ifdb.Done())

    def test_a_columns_kind_must_be_what_is_declared(self) -> None:
        connection = connection_to(b"OK\nROWS 1 1\nx\nOK\nROWS 1 2\nx\ty\n")
        connection.columns["note"] = {"id": int}
        cursor = connection.cursor()
        with self.assertRaisesRegex(ifdb.InterfaceError, "isn't what"):
            cursor.execute("SELECT id FROM note")
        connection.rollback()
        connection.autocommit = True
        with self.assertRaisesRegex(ifdb.InterfaceError, "2 columns came, and 1"):
            cursor.execute("SELECT * FROM note")


PROGRAMMING, OPERATIONAL, INTEGRITY = ifdb.ProgrammingError, ifdb.OperationalError, ifdb.IntegrityError
ERRORS = {
    (1, "Syntax"): PROGRAMMING,
    (2, "NotHello"): PROGRAMMING,
    (3, "HelloTwice"): PROGRAMMING,
    (4, "BadKey"): OPERATIONAL,
    (5, "Taken"): PROGRAMMING,
    (6, "UnknownName"): PROGRAMMING,
    (7, "LabelNotEmpty"): PROGRAMMING,
    (8, "NoAuthority"): PROGRAMMING,
    (9, "InTransaction"): PROGRAMMING,
    (10, "NoTransaction"): PROGRAMMING,
    (11, "TypeMismatch"): PROGRAMMING,
    (12, "WriteLabel"): PROGRAMMING,
    (13, "DuplicateKey"): INTEGRITY,
    (14, "NoReference"): INTEGRITY,
    (15, "OutOfRange"): ifdb.DataError,
    (16, "CommitLabel"): PROGRAMMING,
    (17, "Conflict"): OPERATIONAL,
    (18, "BrokenReference"): INTEGRITY,
    (19, "StillReferenced"): INTEGRITY,
    (20, "OutOfMemory"): OPERATIONAL,
    (21, "TooLong"): ifdb.DataError,
    (22, "Limit"): ifdb.DataError,
    (23, "NotGranted"): PROGRAMMING,
    (24, "KeyColumn"): PROGRAMMING,
    (25, "NotCompound"): PROGRAMMING,
    (26, "NotATable"): PROGRAMMING,
    (27, "ViewAuthority"): PROGRAMMING,
    (28, "NoSession"): ifdb.InternalError,
    (29, "OverClearance"): PROGRAMMING,
    (30, "ClosureLabel"): PROGRAMMING,
    (31, "SomethingNew"): ifdb.DatabaseError,
}


class Errors(unittest.TestCase):
    """Each of the server's errors is one exception, which keeps number, name and place."""

    def refused(self, kind: type, number: int, name: str, ask: Callable[[], object]) -> ifdb.Error:
        with self.assertRaises(ifdb.Error) as caught:
            ask()
        error = caught.exception
        self.assertEqual((type(error), error.number, error.name), (kind, number, name))
        self.assertIn(f"ERR {number} {name}", str(error))
        return error

    def test_the_tree(self) -> None:
        below_database = [
            ifdb.DataError,
            ifdb.OperationalError,
            ifdb.IntegrityError,
            ifdb.InternalError,
            ifdb.ProgrammingError,
            ifdb.NotSupportedError,
        ]
        for below in below_database:
            self.assertEqual(below.__bases__, (ifdb.DatabaseError,))
        self.assertEqual(ifdb.DatabaseError.__bases__ + ifdb.InterfaceError.__bases__, (ifdb.Error, ifdb.Error))
        self.assertEqual(ifdb.Error.__bases__ + ifdb.Warning.__bases__, (Exception, Exception))
        tree: List[type] = [ifdb.Warning, ifdb.Error, ifdb.InterfaceError, ifdb.DatabaseError, *below_database]
        for kind in tree:
            self.assertIs(getattr(ifdb.Connection, kind.__name__), kind)

    def test_each_error_is_one_exception(self) -> None:
        for (number, name), kind in ERRORS.items():
            session, _ = scripted(f"ERR {number} {name}\n".encode(), b"OK\n")
            with self.subTest(name=name):
                error = self.refused(kind, number, name, lambda: session.ask("SHOW LABEL"))
                self.assertIsNone(error.place)
                self.assertEqual(session.is_open, name != "TooLong")

    def test_a_syntax_has_its_place(self) -> None:
        session, _ = scripted(b"ERR 1 Syntax 65535\n")
        self.assertEqual(self.refused(PROGRAMMING, 1, "Syntax", lambda: session.ask("SHOW")).place, 65_535)

    def test_each_error_that_a_connection_can_get_comes_from_the_server(self) -> None:
        with program.Server() as server:
            asked = {}
            for user in ("admin", "ann"):
                asked[user] = ifdb.connect(server.port, user, user, timeout=program.PATIENCE)
                self.addCleanup(asked[user].close)
                for request in SETTING.pop(user):
                    asked[user].cursor().execute(request)
            for name, requests in REFUSED:
                with self.subTest(name=name):
                    [number] = [number for number, it in ERRORS if it == name]
                    *before, last = [request.rpartition(": ") for request in requests]
                    for user, _, request in before:
                        asked[user or "ann"].cursor().execute(request)
                    self.refused(ERRORS[number, name], number, name, lambda: asked["ann"].cursor().execute(last[2]))
                    for connection in asked.values():
                        connection.rollback()
                        connection.label = frozenset()
            session = ifdb.Session(server.port, timeout=program.PATIENCE)
            self.refused(PROGRAMMING, 2, "NotHello", lambda: session.ask("SHOW LABEL"))
            with mock.patch("ifdb.LONGEST_LINE", 70_000):
                self.refused(ifdb.DataError, 21, "TooLong", lambda: session.ask("x" * 65_536))
            self.assertFalse(session.is_open)
            self.refused(OPERATIONAL, 4, "BadKey", lambda: ifdb.connect(server.port, "ann", "x"))
        tried = {name for name, _ in REFUSED} | {"NotHello", "TooLong", "BadKey"}
        self.assertEqual({name for _, name in ERRORS} - tried, {"OutOfMemory", "NoSession", "ClosureLabel", "SomethingNew"})


SETTING = {
    "admin": [
        "CREATE COMPOUND TAG every",
        "CREATE TAG a IN (every)",
        "CREATE TAG b IN (every)",
        "CREATE TAG apart",
        "CREATE PRINCIPAL ann KEY 'ann' CLEARANCE (every)",
        "GRANT a TO ann",
        "CREATE TABLE note (id INT, body TEXT, PRIMARY KEY (id))",
        "CREATE TABLE part (id INT, note INT, PRIMARY KEY (id), FOREIGN KEY (note) REFERENCES note)",
        "INSERT INTO note VALUES (1, 'x'), (8, 'y'), (9, 'z')",
        "INSERT INTO part VALUES (1, 1)",
        "COMMIT",
    ],
    "ann": ["CREATE VIEW seen AS SELECT id FROM note WITH DECLASSIFYING (a)"],
}

# Requests of ann, and of admin where it stands before one. The last is refused by this error.
REFUSED = [
    ("Syntax", ["SELEC"]),
    ("HelloTwice", ["HELLO ann KEY 'ann'"]),
    ("Taken", ["CREATE TAG a"]),
    ("UnknownName", ["SELECT nothing FROM note"]),
    ("LabelNotEmpty", ["SET LABEL (a)", "CREATE TAG c"]),
    ("NoAuthority", ["GRANT b TO ann"]),
    ("InTransaction", ["SELECT id FROM note", "CREATE TAG c"]),
    ("NoTransaction", ["COMMIT"]),
    ("TypeMismatch", ["SELECT body + 1 FROM note"]),
    ("WriteLabel", ["SET LABEL (a)", "UPDATE note SET body = 'w'"]),
    ("DuplicateKey", ["INSERT INTO note VALUES (1, 'w')"]),
    ("NoReference", ["INSERT INTO part VALUES (2, 2)"]),
    ("OutOfRange", ["SELECT id + 9223372036854775807 FROM note"]),
    ("CommitLabel", ["INSERT INTO note VALUES (2, 'w')", "SET LABEL (a)", "COMMIT"]),
    ("Conflict", ["DELETE FROM note WHERE id = 9", "admin: UPDATE note SET body = 'w' WHERE id = 9", "admin: COMMIT", "COMMIT"]),
    ("BrokenReference", ["INSERT INTO part VALUES (2, 8)", "admin: DELETE FROM note WHERE id = 8", "admin: COMMIT", "COMMIT"]),
    ("StillReferenced", ["DELETE FROM note WHERE id = 1", "COMMIT"]),
    ("Limit", ["INSERT INTO note VALUES (9223372036854775808, 'w')"]),
    ("NotGranted", ["REVOKE a FROM admin"]),
    ("KeyColumn", ["UPDATE note SET id = 3"]),
    ("NotCompound", ["CREATE TAG c IN (a)"]),
    ("NotATable", ["INSERT INTO seen VALUES (3)"]),
    ("OverClearance", ["SET LABEL (apart)"]),
    ("ViewAuthority", ["admin: REVOKE a FROM ann", "SELECT id FROM seen"]),
]


class Requests(unittest.TestCase):
    """What is put in the place of a parameter stays there."""

    def test_parameters(self) -> None:
        cases: List[Tuple[str, Tuple[object, ...], str]] = [
            ("SHOW LABEL", (), "SHOW LABEL"),
            ("WHERE a = ?", (7,), "WHERE a =  7 "),
            ("VALUES (?,?)", (-(2**63), "it's"), "VALUES ( -9223372036854775808 , 'it''s' )"),
            ("VALUES ('?', ?)", (True,), "VALUES ('?',  1 )"),
            ("VALUES (?, ?)", (None, "NULL"), "VALUES ( NULL ,  'NULL' )"),
            ("'it''s ?' ?'?'", ("?",), "'it''s ?'  '?' '?'"),
            ("1?2", (3,), "1 3 2"),
            ("SELECT id\n\tFROM note\r\n;", (), "SELECT id \tFROM note  ;"),
            ("'a\rb'", (), "'a\rb'"),
            ("'?", (), "'?"),
        ]
        for operation, parameters, request in cases:
            with self.subTest(operation=operation):
                self.assertEqual(ifdb.request_of(operation, parameters), request)

    def test_parameters_that_dont_fit(self) -> None:
        cases: List[Tuple[type, str, Any]] = [
            (ifdb.ProgrammingError, "?", ()),
            (ifdb.ProgrammingError, "? ?", (1,)),
            (ifdb.ProgrammingError, "'?'", (1,)),
            (ifdb.ProgrammingError, "?", "x"),
            (ifdb.ProgrammingError, "?", {"a": 1}),
            (ifdb.NotSupportedError, "?", (1.5,)),
            (ifdb.NotSupportedError, "?", (b"x",)),
            (ifdb.NotSupportedError, "?", (datetime.date(2026, 1, 1),)),
            (ifdb.DataError, "?", (2**63,)),
            (ifdb.DataError, "?", (-(2**63) - 1,)),
            (ifdb.DataError, "?", ("two\nlines",)),
            (ifdb.DataError, "'two\nlines'", ()),
        ]
        for kind, operation, parameters in cases:
            with self.subTest(operation=operation, parameters=parameters):
                with self.assertRaises(ifdb.Error) as caught:
                    ifdb.request_of(operation, parameters)
                self.assertIs(type(caught.exception), kind)

    def test_names(self) -> None:
        for text in ("a", "_", "Ann_7", "select"):
            self.assertEqual(ifdb.name(text), text)
        for text in ("", "7a", "a b", "a'", "a\n", "\u00e9", "a) --", "ann KEY 'x'"):
            with self.subTest(text=text), self.assertRaises(ifdb.ProgrammingError):
                ifdb.name(text)


class Served(unittest.TestCase):
    """The client over the built program."""

    server: program.Server
    known: ifdb.Columns
    """What the connection knows that made the tables."""

    @classmethod
    def setUpClass(cls) -> None:
        cls.server = program.Server(program.serving(workers=16))
        cls.addClassCleanup(cls.server.stop)
        with cls.connect() as admin:
            for request in (
                "CREATE COMPOUND TAG ward",
                "CREATE TAG ann IN (ward)",
                "CREATE TAG bob IN (ward)",
                "CREATE PRINCIPAL ann KEY 'it''s ann'",
                "CREATE PRINCIPAL bob KEY 'b'",
                "GRANT ann TO ann",
                "CREATE TABLE note (id INT, body TEXT, PRIMARY KEY (id))",
                "CREATE TABLE visit (id INT, reason TEXT, pence INT, PRIMARY KEY (id))",
                "CREATE VIEW bill AS SELECT id, pence * 2 AS double, reason FROM visit WITH DECLASSIFYING (ward)",
            ):
                admin.cursor().execute(request)
            cls.known = admin.columns

    @classmethod
    def connect(cls, user: str = "admin", key: str = "admin", **options: Any) -> ifdb.Connection:
        return ifdb.connect(cls.server.port, user, key, timeout=program.PATIENCE, **options)

    def setUp(self) -> None:
        with self.connect() as admin:
            for table in ("note", "visit"):
                admin.cursor().execute(f"DELETE FROM {table}")

    def rows(self, request: str, **options: Any) -> List[ifdb.Row]:
        with self.connect(**options) as connection:
            return connection.cursor().execute(request).fetchall()

    def test_all_of_unicode_goes_there_and_back(self) -> None:
        characters = [chr(it) for it in range(sys.maxunicode + 1) if chr(it) != "\n" and not 0xD800 <= it < 0xE000]
        step = 8_000
        texts = ["".join(characters[at : at + step]) for at in range(0, len(characters), step)]
        with self.connect() as connection:
            cursor = connection.cursor()
            cursor.executemany("INSERT INTO note VALUES (?, ?)", enumerate(texts))
            self.assertEqual(cursor.rowcount, len(texts))
            self.assertEqual(cursor.execute("SELECT body FROM note").fetchall(), [(text,) for text in texts])
            for number, text in enumerate(texts):
                self.assertEqual(cursor.execute("SELECT id FROM note WHERE body = ?", (text,)).fetchall(), [(number,)])

    def test_no_text_ends_its_literal(self) -> None:
        texts = ["".join(it) for length in range(4) for it in itertools.product("'\\?\t\r;t", repeat=length)]
        texts += ["x'); DELETE FROM note; --", "' OR 'a' = 'a", "''", "', 7), (8, '", "\\'", "ERR 1 Syntax 0", "#"]
        with self.connect() as connection:
            cursor = connection.cursor()
            cursor.executemany("INSERT INTO note VALUES (?, ?)", enumerate(texts))
            self.assertEqual(cursor.execute("SELECT id, body FROM note").fetchall(), list(enumerate(texts)))
            found = [cursor.execute("SELECT COUNT(*) FROM note WHERE body = ?", (text,)).fetchall() for text in texts]
            self.assertEqual(found, [[(texts.count(text),)] for text in texts])

    def test_numbers(self) -> None:
        numbers = [0, 7, -7, 2**63 - 1, -(2**63), True]
        with self.connect() as connection:
            cursor = connection.cursor()
            cursor.executemany("INSERT INTO visit VALUES (?, '', ?)", [(at, number) for at, number in enumerate(numbers)])
            got = cursor.execute("SELECT pence FROM visit").fetchall()
            self.assertEqual(got, [(number,) for number in numbers])
            self.assertEqual({type(value) for [value] in got}, {int})
            got = cursor.execute("SELECT id - ? FROM visit WHERE pence = ?", (-3, -7)).fetchall()
            self.assertEqual(got, [(5,)])

    def test_null(self) -> None:
        texts = [None, "", "NULL", "\\N", "N"]
        with self.connect() as connection:
            cursor = connection.cursor()
            cursor.executemany("INSERT INTO note VALUES (?, ?)", list(enumerate(texts)))
            self.assertEqual(cursor.execute("SELECT id, body FROM note").fetchall(), list(enumerate(texts)))
            self.assertEqual(cursor.execute("SELECT id FROM note WHERE body IS NULL").fetchall(), [(0,)])
            self.assertEqual(cursor.execute("SELECT id FROM note WHERE body = ?", (None,)).fetchall(), [])
            self.assertEqual(cursor.execute("SELECT SUM(id), MIN(body) FROM note WHERE id > 9").fetchall(), [(None, None)])
            cursor.execute("SELECT NULL, NULL AS n, id + NULL FROM note WHERE id = 0")
            assert cursor.description is not None
            self.assertEqual([it[:2] for it in cursor.description], [("NULL", int), ("n", int), ("id + NULL", int)])
            self.assertEqual(cursor.fetchall(), [(None, None, None)])

    def test_kinds_and_names_of_columns(self) -> None:
        cases: List[Tuple[str, List[Tuple[str, ifdb.Kind]]]] = [
            ("SELECT id, body FROM note", [("id", int), ("body", str)]),
            ("select ID, (Body) as B From Note;", [("id", int), ("b", str)]),
            (
                "SELECT n.id, v.reason, pence, body FROM note n, visit AS v",
                [("id", int), ("reason", str), ("pence", int), ("body", str)],
            ),
            ("SELECT a.id, b.body FROM note a, note b WHERE a.id = b.id", [("id", int), ("body", str)]),
            (
                "SELECT id + 1, -7, 'it''s, (x', (id - (2)) * 3 AS n FROM note",
                [("id + 1", int), ("-7", int), ("'it''s, (x'", str), ("n", int)],
            ),
            ("SELECT LABEL OF note, LABEL OF note AS at FROM note", [("LABEL OF note", str), ("at", str)]),
            ("SELECT COUNT(*), COUNT ( * ) AS n FROM note WHERE body <> 'FROM'", [("COUNT(*)", int), ("n", int)]),
            (
                "SELECT reason, COUNT(*), SUM(pence), MIN(reason), MAX(visit.pence) AS most FROM visit GROUP BY reason ORDER BY 1",
                [("reason", str), ("COUNT(*)", int), ("SUM(pence)", int), ("MIN(reason)", str), ("most", int)],
            ),
            ("SELECT id, double, reason FROM bill", [("id", int), ("double", int), ("reason", str)]),
        ]
        with self.connect() as connection:
            cursor = connection.cursor()
            cursor.execute("INSERT INTO note VALUES (1, '7')")
            cursor.execute("INSERT INTO visit VALUES (1, '8', 9)")
            told: List[ifdb.Columns] = [{}, self.known]
            for columns in told:
                connection.columns = columns
                for request, described in cases:
                    with self.subTest(request=request, known=bool(columns)):
                        cursor.execute(request)
                        assert cursor.description is not None
                        self.assertEqual([it[:2] for it in cursor.description], described)
                        self.assertEqual({it[2:] for it in cursor.description}, {(None,) * 5})
                        [row] = cursor.fetchall()
                        self.assertEqual([type(value) for value in row], [kind for _, kind in described])
        self.assertEqual((ifdb.NUMBER, ifdb.STRING), (int, str))

    def test_all_columns(self) -> None:
        with self.connect() as connection:
            cursor = connection.cursor()
            cursor.execute("INSERT INTO note VALUES (1, '7')")
            cursor.execute("INSERT INTO visit VALUES (1, '8', 9)")
            with self.assertRaisesRegex(ifdb.NotSupportedError, "which columns note has"):
                cursor.execute("SELECT * FROM note")
            self.assertRaises(ifdb.ProgrammingError, cursor.fetchall)
            connection.columns = self.known
            self.assertEqual(cursor.execute("SELECT * FROM note").fetchall(), [(1, "7")])
            self.assertEqual(cursor.execute("SELECT * FROM bill b, note").fetchall(), [(1, 18, "8", 1, "7")])
            assert cursor.description is not None
            self.assertEqual([it[0] for it in cursor.description], ["id", "double", "reason", "id", "body"])

    def test_what_is_created_is_entered(self) -> None:
        self.assertEqual(
            self.known,
            {
                "note": {"id": int, "body": str},
                "visit": {"id": int, "reason": str, "pence": int},
                "bill": {"id": int, "double": int, "reason": str},
            },
        )
        with self.connect() as connection:
            cursor = connection.cursor()
            cursor.execute("CREATE VIEW both AS SELECT a.body, b.id + 1 AS n FROM note AS a, note b WITH DECLASSIFYING (ann);")
            cursor.execute("create table Pair (A text, b integer,\nprimary key (A, b), foreign key (b) references note)")
            cursor.execute("CREATE VIEW every AS SELECT * FROM pair WHERE a = 'WITH' WITH DECLASSIFYING (ann)")
            pair = {"a": str, "b": int}
            self.assertEqual(connection.columns, {"both": {"body": str, "n": int}, "pair": pair, "every": pair})
            self.assertEqual([list(it) for it in connection.columns.values()], [["body", "n"], ["a", "b"], ["a", "b"]])

    def test_kinds_are_asked_once(self) -> None:
        listening = mock.patch.object(ifdb.Session, "ask", autospec=True, side_effect=ifdb.Session.ask)
        with self.connect() as connection, listening as ask:
            cursor = connection.cursor()
            for _ in range(3):
                cursor.execute("SELECT id, body, id AS i, n.id FROM note n")
            asked = [call.args[1] for call in ask.call_args_list]
        self.assertEqual(sum("WHERE 0 = 1" in request for request in asked), 2)

    def test_a_cursor(self) -> None:
        with self.connect() as connection, connection.cursor() as cursor:
            self.assertEqual((cursor.description, cursor.rowcount, cursor.lastrowid, cursor.arraysize), (None, -1, None, 1))
            self.assertRaises(ifdb.ProgrammingError, cursor.fetchone)
            cursor.executemany("INSERT INTO note VALUES (?, ?)", ((it, str(it)) for it in range(6)))
            self.assertEqual((cursor.rowcount, cursor.description), (6, None))
            self.assertRaises(ifdb.ProgrammingError, cursor.fetchall)
            self.assertIs(cursor.execute("SELECT id FROM note ORDER BY id"), cursor)
            self.assertEqual(cursor.rowcount, 6)
            self.assertEqual((cursor.fetchone(), cursor.fetchmany(), cursor.fetchmany(2)), ((0,), [(1,)], [(2,), (3,)]))
            cursor.arraysize = 5
            self.assertEqual((next(cursor), cursor.fetchmany(), cursor.fetchmany()), ((4,), [(5,)], []))
            self.assertEqual((cursor.fetchone(), cursor.fetchall(), cursor.fetchmany(-1), list(cursor)), (None, [], [], []))
            cursor.execute("UPDATE note SET body = 'x' WHERE id >= ?", (4,))
            self.assertEqual((cursor.rowcount, cursor.description), (2, None))
            cursor.execute("DELETE FROM note WHERE id = 9")
            self.assertEqual(cursor.rowcount, 0)
            cursor.execute("SHOW LABEL")
            self.assertEqual(cursor.rowcount, -1)
            cursor.setinputsizes([1])
            cursor.setoutputsize(1, 2)
            with self.assertRaises(ifdb.ProgrammingError) as caught:
                cursor.execute("SELECT id\nFROM note WHERE id = ? # 7", (1,))
            assert cursor.request is not None and caught.exception.place is not None
            self.assertEqual(cursor.request[caught.exception.place :], "# 7")
            self.assertIs(cursor.connection, connection)
        self.assertRaises(ifdb.InterfaceError, cursor.execute, "SHOW LABEL")
        self.assertRaises(ifdb.InterfaceError, cursor.fetchall)

    def test_a_transaction_begins_at_the_first_statement_on_rows(self) -> None:
        with self.connect() as connection:
            cursor = connection.cursor()
            cursor.execute("SHOW LABEL")
            cursor.execute("CREATE TAG any_tag")
            connection.commit()
            connection.rollback()
            self.assertFalse(connection.in_transaction)
            cursor.execute("INSERT INTO note VALUES (1, 'x')")
            self.assertTrue(connection.in_transaction)
            self.assertEqual(self.rows("SELECT id FROM note"), [])
            with self.assertRaises(ifdb.IntegrityError):
                cursor.execute("INSERT INTO note VALUES (1, 'x')")
            self.assertTrue(connection.in_transaction)
            connection.commit()
            self.assertFalse(connection.in_transaction)
            self.assertEqual(self.rows("SELECT id FROM note"), [(1,)])
            cursor.execute("DELETE FROM note")
            connection.rollback()
            self.assertEqual(cursor.execute("SELECT id FROM note").fetchall(), [(1,)])
            self.assertTrue(connection.in_transaction)

    def test_autocommit(self) -> None:
        with self.connect(autocommit=True) as connection:
            cursor = connection.cursor()
            cursor.execute("INSERT INTO note VALUES (1, 'x')")
            self.assertFalse(connection.in_transaction)
            self.assertEqual(self.rows("SELECT id FROM note"), [(1,)])
            cursor.execute("BEGIN")
            cursor.execute("INSERT INTO note VALUES (2, 'x')")
            self.assertTrue(connection.in_transaction)
            self.assertEqual(self.rows("SELECT id FROM note"), [(1,)])
            cursor.execute("commit ;")
            self.assertFalse(connection.in_transaction)
            connection.autocommit = False
            cursor.execute("DELETE FROM note")
            connection.autocommit = True
            cursor.execute("INSERT INTO note VALUES (3, 'x')")
            connection.rollback()
            self.assertEqual(self.rows("SELECT id FROM note"), [(1,), (2,)])

    def test_a_refused_commit_ends_its_transaction(self) -> None:
        with self.connect() as one, self.connect() as other:
            for connection in (one, other):
                connection.cursor().execute("INSERT INTO note VALUES (1, 'x')")
            one.commit()
            with self.assertRaises(ifdb.OperationalError) as caught:
                other.commit()
            self.assertEqual(caught.exception.name, "Conflict")
            self.assertFalse(other.in_transaction)
            other.commit()

    def test_a_block_commits_or_rolls_back_and_closes(self) -> None:
        with self.connect() as connection:
            connection.cursor().execute("INSERT INTO note VALUES (1, 'x')")
        self.assertFalse(connection.is_open)
        with self.assertRaises(ZeroDivisionError), self.connect() as connection:
            connection.cursor().execute("INSERT INTO note VALUES (2, 'x')")
            1 / 0
        self.assertFalse(connection.is_open)
        self.assertEqual(self.rows("SELECT id FROM note"), [(1,)])
        with self.connect() as connection:
            connection.close()
        for use in (connection.cursor, connection.commit, connection.rollback, connection.__enter__, lambda: connection.label):
            self.assertRaises(ifdb.InterfaceError, use)
        connection.close()

    def test_bye_ends_the_session(self) -> None:
        connection = self.connect()
        cursor = connection.cursor()
        cursor.execute("INSERT INTO note VALUES (1, 'x')")
        cursor.execute("bye")
        self.assertFalse(connection.is_open)
        self.assertRaises(ifdb.InterfaceError, cursor.execute, "SHOW LABEL")
        self.assertEqual(self.rows("SELECT id FROM note"), [])

    def test_the_label(self) -> None:
        with self.connect("Ann", "it's ann", autocommit=True) as ann, self.connect("bob", "b", autocommit=True) as bob:
            self.assertEqual((ann.user, ann.label), ("ann", set()))
            ann.label = {"ann"}
            self.assertEqual(ann.label, {"ann"})
            ann.cursor().execute("INSERT INTO note VALUES (1, 'cough')")
            self.assertEqual(bob.cursor().execute("SELECT body FROM note").fetchall(), [])
            bob.label = {"ann", "bob"}
            self.assertEqual(bob.cursor().execute("SELECT body FROM note").fetchall(), [("cough",)])
            lower: List[Set[str]] = [set(), {"bob"}, {"ann"}]
            for label in lower:
                with self.assertRaises(ifdb.ProgrammingError) as caught:
                    bob.label = label
                self.assertEqual(caught.exception.name, "NoAuthority")
            self.assertEqual(bob.label, {"ann", "bob"})
            bob.label = {"ann", "ward"}
            self.assertEqual(bob.label, {"ward"})
            ann.label = frozenset()
            for wrong in ({"nothing"}, {"no name"}, {"ann)"}):
                with self.assertRaises(ifdb.ProgrammingError):
                    ann.label = wrong
            with self.assertRaises(ifdb.ProgrammingError):
                ann.label = "ann"  # type: ignore[assignment]
            self.assertEqual(ann.label, set())

    def test_at(self) -> None:
        with self.connect("ann", "it's ann") as ann:
            with ann.at("ann"):
                self.assertEqual(ann.label, {"ann"})
                ann.cursor().execute("INSERT INTO note VALUES (1, 'cough')")
                with ann.at():
                    self.assertEqual(ann.label, {"ann"})
            self.assertEqual(ann.label, set())
            with self.assertRaises(ZeroDivisionError), ann.at("ann"):
                1 / 0
            self.assertEqual(ann.label, set())
            with self.assertRaises(ifdb.ProgrammingError), ann.at("nothing"):
                self.fail("the block isn't begun")
            with ann.at("ann"):
                ann.rollback()
                ann.close()

    def test_at_says_when_it_may_not_lower(self) -> None:
        with self.connect("ann", "it's ann") as ann:
            with self.assertRaises(ifdb.ProgrammingError) as caught:
                with ann.at("bob", "ann"):
                    pass
            self.assertEqual((caught.exception.number, caught.exception.name), (8, "NoAuthority"))
            self.assertRegex(str(caught.exception), r"ann may not lower the label from \{ann,bob\} to \{\}, so it stays")
            self.assertEqual(ann.label, {"ann", "bob"})
            with self.assertRaises(ifdb.ProgrammingError) as caught, ann.at("ward"):
                raise ValueError("in the block")
            self.assertIsInstance(caught.exception.__context__, ValueError)

    def test_what_was_read_at_a_label_isnt_committed_below_it(self) -> None:
        with self.assertRaises(ifdb.ProgrammingError) as caught, self.connect("bob", "b") as bob:
            bob.cursor().execute("INSERT INTO note VALUES (5, 'what has ann?')")
            bob.label = {"ann"}
        self.assertEqual(caught.exception.name, "CommitLabel")
        self.assertFalse(bob.is_open)

    def test_nobody_serves(self) -> None:
        with self.assertRaisesRegex(ifdb.OperationalError, "no connection to port"):
            ifdb.connect(program.free_port(), "admin", "admin")

    def test_no_worker_is_free(self) -> None:
        with program.Server(program.serving(workers=1)) as server, ifdb.connect(server.port, "admin", "admin"):
            with self.assertRaisesRegex(ifdb.OperationalError, "no reply within 0.2 s"):
                ifdb.connect(server.port, "admin", "admin", timeout=0.2)

    def test_the_server_ends_in_the_middle(self) -> None:
        server = program.Server()
        connection = ifdb.connect(server.port, "admin", "admin", timeout=program.PATIENCE)
        connection.cursor().execute("CREATE TAG a")
        server.stop()
        with self.assertRaises(ifdb.OperationalError):
            connection.cursor().execute("SHOW LABEL")
        self.assertFalse(connection.is_open)
        connection.close()

    def test_closed_sessions_are_no_faults_to_the_server(self) -> None:
        with program.Server(program.serving(workers=1, links=3)) as server:
            ifdb.connect(server.port, "admin", "admin").close()
            with ifdb.connect(server.port, "admin", "admin") as connection:
                connection.cursor().execute("SHOW LABEL")
            with self.assertRaises(ifdb.OperationalError):
                ifdb.connect(server.port, "admin", "x")
            summary = server.summary()
        self.assertEqual((summary["sessions"], summary["faults"]), (3, 0))


class Module(unittest.TestCase):
    """What the standard asks of the module itself."""

    def test_globals(self) -> None:
        self.assertEqual((ifdb.apilevel, ifdb.threadsafety, ifdb.paramstyle), ("2.0", 1, "qmark"))

    def test_constructors(self) -> None:
        moment = datetime.datetime(2026, 11, 29, 6, 34, 5)
        ticks = moment.timestamp()
        self.assertEqual(ifdb.TimestampFromTicks(ticks), moment)
        self.assertEqual(ifdb.DateFromTicks(ticks), moment.date())
        self.assertEqual(ifdb.TimeFromTicks(ticks), moment.time())
        self.assertEqual(ifdb.Timestamp(2026, 11, 29, 6, 34, 5), moment)
        self.assertEqual((ifdb.Date(2026, 11, 29), ifdb.Time(6, 34, 5)), (moment.date(), moment.time()))
        self.assertEqual(ifdb.Binary(b"x"), b"x")

    def test_type_objects_are_apart(self) -> None:
        self.assertEqual(len({ifdb.STRING, ifdb.NUMBER, ifdb.BINARY, ifdb.DATETIME, ifdb.ROWID}), 5)


if __name__ == "__main__":
    unittest.main()
