#!/usr/bin/env python3
"""Plays the browsers of `web.dialogue` against the clinic's web application over a database in a file, by the built program, and
compares what they are told, and what the log tells, with what stands there. Then has a crowd of browsers ask side by side, none of
whom may be refused, and then N people (300) twice each, for whom the application keeps a connection each. Then kills the server while
browsers ask, starts it again over its file and at its port, and looks whether the application, which went on, shows all that they had
been told was done.

    tests/clinic.py [--update] [--crowd N]      `--update` stores what was told

The status is 0 if all was so, 1 if not, and 69 if the program has no command `host`.
"""

from __future__ import annotations

import argparse
import base64
import concurrent.futures
import html.parser
import pathlib
import resource
import sys
import tempfile
import threading
import time
import urllib.error
import urllib.request
from typing import List, Sequence, Tuple

ROOT = pathlib.Path(__file__).resolve().parent.parent
CLINIC = ROOT / "examples/clinic"
sys.path += [str(CLINIC), str(ROOT / "clients/python")]
import app  # noqa: E402
import dialogue  # noqa: E402
import ifdb  # noqa: E402
import program  # noqa: E402
import start  # noqa: E402


NOT_HERE = 69
MOST = 2_000
"""How often browsers ask at most, up to the kill."""


class Text(html.parser.HTMLParser):
    """The text of a page, a line for each heading, paragraph and row."""

    def __init__(self) -> None:
        super().__init__()
        self.lines: List[str] = []
        self._tag = ""

    def handle_starttag(self, tag: str, attributes: Sequence[Tuple[str, object]]) -> None:
        self._tag = tag
        if tag in ("h1", "h2", "p", "tr", "text"):
            self.lines.append("")

    def handle_data(self, data: str) -> None:
        if self.lines and data.strip():
            self.lines[-1] += f"{' | ' if self.lines[-1] else ''}{data}"


class Browsers:
    """Browsers of a web application by the names of who sits before them, and its log."""

    def __init__(self, web_port: int, log: List[str]) -> None:
        self._at = f"http://127.0.0.1:{web_port}"
        self._log = log

    def ask(self, name: str, line: str) -> List[str]:
        """The status, the page's text and the log's new lines."""
        method, _, path = line.partition(" ")
        words = base64.b64encode(f"{name}:{start.key_of(name)}".encode()).decode()
        request = urllib.request.Request(self._at + path, headers={"Authorization": f"Basic {words}"}, method=method)
        try:
            with urllib.request.urlopen(request, timeout=program.PATIENCE) as reply:
                status, page = reply.status, reply.read()
        except urllib.error.HTTPError as refused:
            with refused:
                status, page = refused.code, refused.read()
        text = Text()
        text.feed(page.decode())
        logged, self._log[:] = list(self._log), []
        return [str(status), *(f"  {it}" for it in text.lines), *(f"  log: {it}" for it in logged)]


def refused_in_a_crowd(browsers: Browsers) -> int:
    """How many of twenty requests fail that ann's browsers make side by side. Each puts a mail into her mailbox under the next
    number, so their transactions meet, and have to be done again."""
    with concurrent.futures.ThreadPoolExecutor(4) as crowd:
        replies = list(crowd.map(lambda _: browsers.ask("ann", "GET /visit?of=ann&id=10")[0], range(20)))
    return sum(status != "200" for status in replies)


def wrong_in_a_large_crowd(browsers: Browsers, database: program.Server, people: int) -> List[str]:
    """What is otherwise than it has to be where so many people ask for their page twice, and each keeps a connection in between."""
    names = [f"clerk{it}" for it in range(people)]
    with ifdb.connect(database.port, "admin", program.ADMIN_KEY, timeout=program.PATIENCE) as admin:
        cursor = admin.cursor()
        for name in names:
            cursor.execute(f"CREATE PRINCIPAL {name} KEY ?", (start.key_of(name),))
        cursor.executemany("INSERT INTO person VALUES (?, 'clerk')", [(name,) for name in names])
    wrong = []
    with concurrent.futures.ThreadPoolExecutor(16) as crowd:
        for place in ("first", "second"):
            untold = sum(status != "200" for status in crowd.map(lambda name: browsers.ask(name, "GET /")[0], names))
            wrong += [f"{untold} weren't told their {place} page"] if untold else []
    held = len(list(pathlib.Path(f"/proc/{database.pid}/fd").iterdir()))
    return wrong + ([f"the server has {held} descriptors open"] if held < people else [])


def mails(browsers: Browsers, name: str) -> List[str]:
    """The mails that somebody's home page shows."""
    page = browsers.ask(name, "GET /")
    return page[page.index("  number | text") + 1 :]


def wrong_behind_a_kill(browsers: Browsers, database: program.Server, file: pathlib.Path) -> List[str]:
    """What is otherwise than it has to be once the server was killed while ann's browsers asked, each time for one mail more, and was
    started again."""
    before, bobs = mails(browsers, "ann"), browsers.ask("bob", "GET /")
    with concurrent.futures.ThreadPoolExecutor(4) as crowd:
        asked = [crowd.submit(browsers.ask, "ann", "GET /visit?of=ann&id=10") for _ in range(MOST)]
        while sum(it.done() for it in asked) < 20:
            time.sleep(0.01)
        database.stop()
        waiting = [it for it in asked if not it.cancel()]
    done = sum(it.result()[0] == "200" for it in waiting)
    with program.Server(program.hosting(file), port=database.port):
        wrong = ["a second start made a clinic"] if start.start(database.port, program.ADMIN_KEY) else []
        behind = mails(browsers, "ann")
        if behind[: len(before)] != before or not done <= len(behind) - len(before) <= done + 4:
            wrong.append(f"ann had {len(before)} mails, was told of {done} more, and has {len(behind)}")
        if browsers.ask("bob", "GET /") != bobs:
            wrong.append("bob's page is another")
    return wrong


def let_eve_in(port: int) -> None:
    """What anybody may do who reaches the port: makes a principal, and calls it a doctor."""
    with ifdb.connect(port, "admin", program.ADMIN_KEY, timeout=program.PATIENCE) as admin:
        cursor = admin.cursor()
        cursor.execute("CREATE PRINCIPAL eve KEY ?", (start.key_of("eve"),))
        cursor.execute("INSERT INTO person VALUES ('eve', 'doctor')")


def main(words: Sequence[str]) -> int:
    parser = argparse.ArgumentParser(description=__doc__, formatter_class=argparse.RawDescriptionHelpFormatter)
    parser.add_argument("--update", action="store_true")
    parser.add_argument("--crowd", type=int, default=300)
    given = parser.parse_args(words)
    most = resource.getrlimit(resource.RLIMIT_NOFILE)[1]
    resource.setrlimit(resource.RLIMIT_NOFILE, (most, most))
    if not program.can_host():
        print(f"clinic: nothing was tried: {program.path()} isn't there, or has no command host", file=sys.stderr)
        return NOT_HERE
    log: List[str] = []
    with tempfile.TemporaryDirectory(prefix="ifdb-clinic-") as folder:
        file = pathlib.Path(folder) / "clinic"
        with program.Server(program.hosting(file)) as database:
            start.start(database.port, program.ADMIN_KEY)
            let_eve_in(database.port)
            with app.serve(database.port, 0, log.append) as web:
                threading.Thread(target=web.serve_forever).start()
                try:
                    browsers = Browsers(web.server_port, log)
                    differing = dialogue.differs(CLINIC / "web.dialogue", browsers.ask, update=given.update)
                    refused = refused_in_a_crowd(browsers)
                    crowded = wrong_in_a_large_crowd(browsers, database, given.crowd)
                    wrong = wrong_behind_a_kill(browsers, database, file)
                finally:
                    web.shutdown()
    print(f"the clinic's web dialogue {'differs' if differing else 'is as stored'}; {refused} of 20 requests in a crowd failed")
    print(f"{given.crowd} people, with a connection each: {'; '.join(crowded) or 'all were told'}")
    print(f"behind a kill: {'; '.join(wrong) or 'all that was told is there'}")
    return 1 if differing or refused or crowded or wrong else 0


if __name__ == "__main__":
    sys.exit(main(sys.argv[1:]))
