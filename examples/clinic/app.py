#!/usr/bin/env python3
"""A clinic's web application over ifdb, with two planted bugs that leak nothing.

    examples/clinic/app.py IFDB_PORT WEB_PORT

Behind `examples/clinic/start.py IFDB_PORT`, a browser at http://127.0.0.1:WEB_PORT/ asks for a name and a key: ann and ann-key, bob
and bob-key, grey and grey-key, clerk and clerk-key.

Each request has a connection that said HELLO as who asks, by the key that the browser sent: the application has no authority of its own.
It keeps the connections of who asked, in a pool for each. A page leaves only where the session could come back to the empty label, by
the authority of who reads it. `Application.page_once` sees to that for every handler, and with `Application.pool` is what has to be
right in this file.
"""

from __future__ import annotations

import base64
import binascii
import html
import http.server
import pathlib
import sys
import threading
import urllib.parse
from http import HTTPStatus
from typing import Callable, Dict, FrozenSet, Iterable, List, NamedTuple, Optional, Sequence, Tuple

sys.path[:0] = [str(pathlib.Path(__file__).resolve().parents[2] / "clients/python"), str(pathlib.Path(__file__).resolve().parent)]
import ifdb  # noqa: E402
import picture  # noqa: E402

PATIENCE = 10.0
"""Seconds that the database has for an answer."""
TRIES = 20
"""How often a request is begun at most, where its transaction meets others."""
SIZE, MOST = 4, 4_000
"""How many connections one who asks has at most, and of how many of them connections are kept."""


class Request(NamedTuple):
    """Who asks for a page, at which label the page is read, and the words of the address."""

    role: str
    label: FrozenSet[str]
    words: Dict[str, str]


class Reply(NamedTuple):
    """What goes back to the browser."""

    status: HTTPStatus
    body: str


# ---- Pages. Each gets a connection at the label of who asks.


def table(names: Sequence[str], rows: Iterable[ifdb.Row]) -> str:
    """Rows as a table of a page."""
    cells = ["".join(f"<td>{html.escape(str(value))}</td>" for value in line) for line in (names, *rows)]
    return "<table>" + "".join(f"<tr>{line}</tr>" for line in cells) + "</table>"


class Part(NamedTuple):
    """What a home page has in it: a title, and what is asked for it."""

    title: str
    names: Sequence[str]
    request: str


VISITS = Part("Visits", ("number", "doctor", "reason"), "SELECT id, doctor, reason FROM visit")
MAIL = Part("Mail", ("number", "text"), "SELECT id, body FROM mail")
PATIENTS = Part("Patients", ("whose", "number", "reason"), "SELECT LABEL OF visit, id, reason FROM visit")
DOCTORS = Part(
    "Doctors",
    ("doctor", "visits", "pence"),
    "SELECT doctor, COUNT(*), SUM(pence) FROM visit GROUP BY doctor ORDER BY doctor",
)
BILLS = Part("Bills", ("visit", "pence"), "SELECT id, pence FROM bill")
HOME = {"patient": (VISITS, MAIL), "doctor": (PATIENTS, DOCTORS), "clerk": (BILLS, VISITS)}


def home(connection: ifdb.Connection, request: Request) -> str:
    """What somebody begins with. That a clerk's has visits in it shows nothing either: a clerk sees none."""
    cursor = connection.cursor()
    return "".join(
        f"<h2>{part.title}</h2>{table(part.names, cursor.execute(part.request).fetchall())}" for part in HOME[request.role]
    )


def visit(connection: ifdb.Connection, request: Request) -> str:
    """A visit of the reader's, of which a copy goes to the reader's mail.

    The first planted bug: whose visit it is comes from the address, and not from who asks. So bob may have ann's read."""
    cursor = connection.cursor()
    with connection.at(request.words["of"]):
        found = cursor.execute("SELECT id, doctor, reason FROM visit WHERE id = ?", (int(request.words["id"]),)).fetchone()
    if found is None:
        raise LookupError("no visit")
    send_mail(cursor, f"You looked at visit {found[0]}: {found[2]}")
    return table(VISITS.names, [found])


def remind(connection: ifdb.Connection, request: Request) -> str:
    """A mail to the reader that a visit is near, if there is such a visit.

    The second planted bug: the mail is written first, and kept only where the visit is found, which is looked for as above. So that
    the mail stands would tell bob of ann's visit."""
    cursor = connection.cursor()
    number = int(request.words["id"])
    send_mail(cursor, f"Don't forget visit {number}")
    connection.label = request.label | {request.words["of"]}
    if cursor.execute("SELECT id FROM visit WHERE id = ?", (number,)).fetchone():
        connection.commit()
    return "<p>You will be reminded, if there is such a visit.</p>"


def overview(connection: ifdb.Connection, request: Request) -> str:
    """Who can see what, as a picture: what the reader's label reaches, and that there is more."""
    cursor = connection.cursor()
    patients = [str(name) for (name,) in cursor.execute("SELECT name FROM person WHERE role = 'patient'").fetchall()]
    visits = picture.by_label(cursor.execute("SELECT LABEL OF visit, id, reason FROM visit").fetchall())
    bills = [f"bill of visit {number}: {pence} pence" for number, pence in cursor.execute("SELECT id, pence FROM bill").fetchall()]
    tags = [picture.Tag(it, bool(request.label & {it, "patients"}), visits.get(it, [])) for it in patients]
    return picture.picture(connection.user, tags, bills)


Page = Callable[[ifdb.Connection, Request], str]
PAGES: Dict[str, Page] = {"/": home, "/visit": visit, "/remind": remind, "/picture": overview}


def send_mail(cursor: ifdb.Cursor, body: str) -> None:
    """Puts a mail into the mailbox at the session's label."""
    [(mails,)] = cursor.execute("SELECT COUNT(*) FROM mail").fetchall()
    cursor.execute("INSERT INTO mail VALUES (?, ?)", (mails, body))


# ---- The application around them


def document(title: str, body: str) -> str:
    return (
        f"<!doctype html><html lang=en><meta charset=utf-8><title>{html.escape(title)}</title><link rel=icon href=data:,>"
        "<style>body{font:16px sans-serif;margin:1.5em}h1{font-size:1.4em}h2{font-size:1.1em}td{padding:.2em 1em .2em 0}"
        "tr:first-child td{color:#666}</style>"
        f"<h1>{html.escape(title)}</h1>{body}</html>\n"
    )


NOBODY = Reply(HTTPStatus.UNAUTHORIZED, document("Who are you?", ""))


class Application:
    """Answers requests for pages over connections to one server."""

    def __init__(self, port: int, log: Callable[[str], None]) -> None:
        self._port = port
        self._log = log
        self._pools: Dict[Tuple[str, str], ifdb.Pool] = {}
        """By a name and a key, which the server has heard; who asked last is the last."""
        self._lock = threading.Lock()

    def pool(self, user: str, key: str) -> ifdb.Pool:
        """The connections of who asks by this name and this key, and of nobody else. Who has asked for none for the longest time is
        forgotten where there are too many."""
        with self._lock:
            pool = self._pools.pop((user, key), None) or ifdb.Pool(self._port, user, key, timeout=PATIENCE, size=SIZE)
            self._pools[user, key] = pool
            oldest = self._pools.pop(next(iter(self._pools))) if len(self._pools) > MOST else None
        if oldest is not None:
            oldest.close()
        return pool

    def forget(self, user: str, key: str) -> None:
        with self._lock:
            pool = self._pools.pop((user, key), None)
        if pool is not None:
            pool.close()

    def close(self) -> None:
        """Closes all connections."""
        with self._lock:
            pools, self._pools = list(self._pools.values()), {}
        for pool in pools:
            pool.close()

    def answer(self, user: str, key: str, target: str) -> Reply:
        """The reply to somebody's request. What the database refuses is a line of the log, and a page that says nothing of it."""
        path, _, query = target.partition("?")
        try:
            return Reply(HTTPStatus.OK, document(f"The clinic of {user}", self.page(user, key, path, query)))
        except (LookupError, ValueError) as fault:
            self._log(f"{user} {target!a}: {fault!r}")
            return Reply(HTTPStatus.NOT_FOUND, document("There is no such page", ""))
        except ifdb.Error as error:
            self._log(f"{user} {target!a}: {'; then '.join(refusals(error))}")
            if error.name == "BadKey":
                self.forget(user, key)
                return NOBODY
            return Reply(HTTPStatus.INTERNAL_SERVER_ERROR, document("Something went wrong", "<p>Nothing was shown or sent.</p>"))

    def page(self, user: str, key: str, path: str, query: str) -> str:
        """What a handler writes. A request whose transaction meets another is done once more from its beginning."""
        handler, words = PAGES[path], dict(urllib.parse.parse_qsl(query))
        for _ in range(TRIES - 1):
            try:
                return self.page_once(user, key, handler, words)
            except ifdb.OperationalError as error:
                if error.name != "Conflict":
                    raise
        return self.page_once(user, key, handler, words)

    def page_once(self, user: str, key: str, handler: Page, words: Dict[str, str]) -> str:
        """What a handler writes, where it may leave the database.

        Handlers begin at the label of who reads: a patient's own, the doctor's that of all patients, the clerk's the empty one.
        Whatever came of a handler, the label then goes down to the empty one, by the authority of who reads alone. Where the
        database refuses that, somebody else's secret was read, and there is no page."""
        with self.pool(user, key).connection() as connection:
            role = role_of(connection)
            label = {"patient": frozenset({connection.user}), "doctor": frozenset({"patients"})}.get(role, frozenset())
            try:
                connection.label = label
                return handler(connection, Request(role, label, words))
            finally:
                connection.label = frozenset()


def refusals(error: Optional[BaseException]) -> List[str]:
    """What was refused, the first one first."""
    return [] if error is None else [*refusals(error.__context__), str(error)]


def role_of(connection: ifdb.Connection) -> str:
    """What somebody is in the clinic. Everybody may know it."""
    found = connection.cursor().execute("SELECT role FROM person WHERE name = ?", (connection.user,)).fetchone()
    return "nobody" if found is None else str(found[0])


class Handler(http.server.BaseHTTPRequestHandler):
    """HTTP's side: who asks is told by Basic authentication."""

    application: Application

    def do_GET(self) -> None:
        asker = self._asker()
        reply = NOBODY if asker is None else self.application.answer(*asker, self.path)
        body = reply.body.encode()
        self.send_response(reply.status)
        if reply.status == HTTPStatus.UNAUTHORIZED:
            self.send_header("WWW-Authenticate", 'Basic realm="clinic", charset="UTF-8"')
        self.send_header("Content-Type", "text/html; charset=utf-8")
        self.send_header("Content-Length", str(len(body)))
        self.send_header("Cache-Control", "no-store")
        self.end_headers()
        self.wfile.write(body)

    def _asker(self) -> Optional[Tuple[str, str]]:
        """The name and the key that the browser sends, if it does."""
        kind, _, words = self.headers.get("Authorization", "").partition(" ")
        try:
            user, colon, key = base64.b64decode(words, validate=True).decode().partition(":")
            return (ifdb.name(user), key) if kind == "Basic" and colon else None
        except (binascii.Error, UnicodeDecodeError, ifdb.ProgrammingError):
            return None

    def log_message(self, format: str, *args: object) -> None:
        """Nothing: the application has a log of its own, in which no key stands."""


class Web(http.server.ThreadingHTTPServer):
    """A web server of an application, whose connections end with it."""

    request_queue_size = 1024

    def __init__(self, web_port: int, application: Application) -> None:
        self._application = application
        super().__init__(("127.0.0.1", web_port), type("Handler", (Handler,), {"application": application}))

    def server_close(self) -> None:
        super().server_close()
        self._application.close()


def serve(port: int, web_port: int, log: Callable[[str], None]) -> Web:
    """A web server of the application at this port of this machine, to be run by `serve_forever`."""
    return Web(web_port, Application(port, log))


def main(words: Sequence[str]) -> int:
    if len(words) != 2:
        print(__doc__, file=sys.stderr)
        return 2
    with serve(int(words[0]), int(words[1]), lambda line: print(line, file=sys.stderr, flush=True)) as server:
        try:
            server.serve_forever()
        except KeyboardInterrupt:
            pass
    return 0


if __name__ == "__main__":
    sys.exit(main(sys.argv[1:]))
