#!/usr/bin/env python3
"""A shell for a served ifdb, as people know them from psql and sqlite3.

At a terminal it has a prompt with the principal and the label, as `ann {ann,ward}>` (and `ann {ann,ward}*>` while a transaction
is open), edits lines, keeps a history, and completes words and names by Tab. A file or a pipe is read line by line. Each line is a
request, or a command that begins with a dot (`.help` lists them); empty lines and those that begin with # are nothing.
"""

from __future__ import annotations

import argparse
import getpass
import os
import pathlib
import re
import ssl
import sys
import time
import unicodedata
from collections.abc import Iterable, Iterator, Sequence
from typing import Callable, Dict, Optional, TextIO, Union

import ifdb
import ifdb_csv

try:
    import readline
except ImportError:  # Python may be built without it; then lines aren't edited
    readline = None  # type: ignore[assignment]

DONE, REFUSED, LOST = 0, 1, 3  # 2 is argparse's
STATUSES = """\
exit status:
  0  all was answered; at a terminal also where requests were refused
  1  a request was refused, or a command or the input failed
  2  the words of the command line are wrong, or there is no key
  3  no connection, a wrong key, or the connection ended

The key is that of --key, else of the variable IFDB_KEY, else it is asked for at the terminal. The history is kept in the file that
IFDB_HISTORY names, else in ~/.ifdb_history, without lines that hold a key."""

HELP = """\
.help                  these lines
.label                 shows the session's label
.label TAG..           sets it, as SET LABEL does; .label () sets the empty one
.timing [on|off]       whether times are shown
.read FILE             runs the lines of a file
.dump TABLE COLUMN..   writes the rows that are seen, as CSV
.import FILE TABLE     inserts the rows of a CSV file, whose first line names the columns: all, or none
.quit                  ends the session, as BYE and the end of the input do

In CSV a text stands in quotes, a number without, and NULL is nothing. The columns of a table that was made in this session needn't
be named."""

HISTORY_LINES = 1000
_HOLDS_KEY = re.compile(r"\bKEY[ \t]*'", re.IGNORECASE)
_NUMBER = re.compile(r"0|-?[1-9][0-9]*")


# ---- What is shown


def shown(text: str) -> str:
    """The text with what a terminal wouldn't print, or would obey, written as Python writes it."""
    return "".join(it if it.isprintable() else repr(it)[1:-1] for it in text)


def width(text: str) -> int:
    """How many places of a terminal's line a shown text takes."""
    return sum(
        0 if unicodedata.combining(it) else 2 if unicodedata.east_asian_width(it) in "WF" else 1 for it in text
    )


def _padded(text: str, to: int, is_number: bool) -> str:
    blanks = " " * (to - width(text))
    return blanks + text if is_number else text + blanks


def table(names: Sequence[str], rows: Sequence[Sequence[Optional[str]]]) -> Iterator[str]:
    """The lines of a table. A column stands on the right where each value of it reads as a number. NULL is shown as nothing."""
    values = [[value or "" for value in row] for row in rows]
    columns = [[shown(value) for value in column] for column in zip(names, *values)]
    widths = [max(map(width, column)) for column in columns]
    numeric = [any(column[1:]) and all(not it or _NUMBER.fullmatch(it) for it in column[1:]) for column in columns]
    lines = [" | ".join(map(_padded, line, widths, numeric)) for line in zip(*columns)]
    yield f" {lines[0]}".rstrip()
    yield "-+-".join("-" * it for it in widths).join(("-", "-"))
    for line in lines[1:]:
        yield f" {line}".rstrip()


def counted(rows: int) -> str:
    return f"{rows} row" if rows == 1 else f"{rows} rows"


def pointed(request: str, place: int) -> str:
    """The request, and below it a caret at this byte of it."""
    before = shown(request.encode()[:place].decode(errors="replace"))
    return f"  {shown(request)}\n  {' ' * width(before)}^"


class Progress:
    """A line at the terminal that tells how far something is. Where standard error is no terminal, it tells nothing."""

    def __init__(self, what: str) -> None:
        self._what = what
        self._width = 0
        self._next = 0.0

    def tell(self, rows: int) -> None:
        """Tells of so many rows, unless it told a moment ago."""
        if sys.stderr.isatty() and time.monotonic() >= self._next:
            self._next = time.monotonic() + 0.1
            self._write(f"{self._what}: {rows:,} rows")

    def clear(self) -> None:
        """Takes the line away."""
        if self._width:
            self._write("")
            self._write("")

    def _write(self, text: str) -> None:
        print(f"\r{text.ljust(self._width)}", end="", file=sys.stderr, flush=True)
        self._width = len(text)


# ---- What Tab completes

WORDS = (
    "AND AS ASC BEGIN BY BYE CLEARANCE COMMIT COMPOUND COUNT CREATE DECLASSIFYING DELETE DESC FOREIGN FROM GRANT GROUP HELLO IN INSERT"
    " INT INTEGER INTO IS KEY LABEL MAX MIN NOT NULL OF OR ORDER PRIMARY PRINCIPAL REFERENCES REVOKE ROLLBACK SELECT SET SHOW SUM TABLE"
    " TAG TEXT TO UPDATE VALUES VIEW WHERE WITH"
).split()
_TEXT_OR_NAME = re.compile(r"'(?:[^']|'')*'?|([A-Za-z_][A-Za-z0-9_]*)")


class Completer:
    """What Tab completes: the words of the language, the shell's commands, and the names of requests so far. The server tells no
    names."""

    def __init__(self, commands: Iterable[str]) -> None:
        self._commands = sorted(commands)
        self._names: set[str] = set()
        self._found: list[str] = []

    def learn(self, request: str) -> None:
        """Learns the names of a request."""
        found = (it[1] for it in _TEXT_OR_NAME.finditer(request) if it[1])
        self._names |= {name.lower() for name in found if name.upper() not in WORDS}

    def matches(self, text: str, before: str) -> list[str]:
        """All that a text may be the beginning of, behind what stands before it on its line; words with the blank behind them."""
        if not before and text.startswith("."):
            return [f"{it} " for it in self._commands if it.startswith(text)]
        source, dot, begin = text.rpartition(".")
        names = sorted(source + dot + it for it in self._names if it.startswith(begin.lower()))
        if dot or before.lstrip().startswith("."):
            return names
        words = (it.lower() if text.islower() else it for it in WORDS)
        return [*(f"{it} " for it in words if it.startswith(text)), *names]

    def __call__(self, text: str, state: int) -> Optional[str]:
        """The match of a number, as readline asks for them."""
        if state == 0:
            self._found = self.matches(text, readline.get_line_buffer()[: readline.get_begidx()])
        return self._found[state] if state < len(self._found) else None


# ---- The shell


class Shell:
    """A session, and what has become of it."""

    def __init__(self, session: ifdb.Session, user: str, *, timing: bool, bail: bool) -> None:
        self.status = DONE
        self.is_over = False
        self._session = session
        self._user = user
        self._timing = timing
        self._bail = bail
        self._label: Sequence[str] = ()
        self._reading: list[pathlib.Path] = []
        self._connection = ifdb.Connection(session, user, autocommit=True, columns={})
        self._commands: Dict[str, Callable[[str, str], None]] = {
            ".help": lambda words, where: print(HELP),
            ".label": self._set_label,
            ".timing": self._set_timing,
            ".read": self._read_file,
            ".dump": self._dump,
            ".import": self._import,
            ".quit": self._quit,
        }
        self.completer = Completer(self._commands)

    def prompt(self) -> str:
        return f"{self._user} {{{','.join(self._label)}}}{'*' if self._session.in_transaction else ''}> "

    def run(self, line: str, where: str = "") -> None:
        """Runs a line. `where` says in a message where it stands."""
        if not line.strip() or line.startswith("#"):
            return
        if not line.startswith("."):
            self._ask(line, where)
            return
        command, _, words = line.strip().partition(" ")
        if command in self._commands:
            self._commands[command](words.strip(), where)
        else:
            self._fail(f"{where}there is no command {shown(command)}; .help lists them")

    def read(self, lines: Iterable[str], name: str) -> None:
        """Runs the lines of an input."""
        for number, line in enumerate(lines, 1):
            self.run(line.removesuffix("\n"), f"{name}:{number}: ")
            if self.is_over:
                return

    def _ask(self, request: str, where: str) -> None:
        begun = time.perf_counter()
        try:
            reply = self._session.ask(request)
            took = time.perf_counter() - begun
            self._learn(request)
        except ifdb.Error as error:
            self._refuse(where, error, request)
        else:
            self._show(request, reply, self._time(took))
            self._note_end(self.status)

    def _time(self, took: float) -> str:
        return f"{took * 1000:.1f} ms" if self._timing else ""

    def _refuse(self, where: str, error: ifdb.Error, request: str) -> None:
        self._fail(f"{where}{error}" + ("" if error.place is None else f"\n{pointed(request, error.place)}"))
        self._note_end(LOST)

    def _learn(self, request: str) -> None:
        """Learns what an accepted request tells: names, a table's columns, the label."""
        self.completer.learn(request)
        words = request.lower().split(None, 3)
        if words[0] == "set":
            self._learn_label()
        elif words[:2] == ["create", "table"]:
            self._connection.columns[words[2].partition("(")[0]] = ifdb.columns_of_table(request)

    def _show(self, request: str, reply: ifdb.Reply, took: str) -> None:
        if isinstance(reply, ifdb.Rows):
            names = ifdb.item_names(request) or [str(place + 1) for place in range(reply.columns)]
            for line in table(names, reply.rows):
                print(line)
            told = [counted(len(reply.rows)), took]
            print(f"({', '.join(filter(None, told))})\n")
        elif isinstance(reply, ifdb.Label):
            print(f"{{{','.join(reply.tags)}}}")
        else:
            told = ["OK", counted(reply.rows) if isinstance(reply, ifdb.Count) else "", took]
            print(", ".join(filter(None, told)))

    def _learn_label(self) -> None:
        reply = self._session.ask("SHOW LABEL")
        assert isinstance(reply, ifdb.Label)
        self._label = reply.tags

    def _note_end(self, status: int) -> None:
        """Is over where the session is."""
        if not self._session.is_open:
            self.is_over, self.status = True, status

    def _fail(self, what: str) -> None:
        sys.stdout.flush()
        print(what, file=sys.stderr, flush=True)
        self.status = REFUSED
        self.is_over = self.is_over or self._bail

    def _set_label(self, words: str, where: str) -> None:
        tags = re.sub("[(),]", " ", words).split()
        self._ask(f"SET LABEL ({', '.join(tags)})" if words else "SHOW LABEL", where)

    def _set_timing(self, words: str, where: str) -> None:
        if words not in ("", "on", "off"):
            self._fail(f"{where}.timing is on or off")
            return
        self._timing = not self._timing if not words else words == "on"
        print(f"times are {'shown' if self._timing else 'not shown'}")

    def _read_file(self, words: str, where: str) -> None:
        path = pathlib.Path(words).expanduser().resolve()
        if path in self._reading:
            self._fail(f"{where}{shown(words)} is being read already")
            return
        try:
            lines = open_input(path)
        except OSError as fault:
            self._fail(f"{where}can't read {shown(words) or 'nothing'}: {fault.strerror}")
            return
        self._reading.append(path)
        with lines:
            self.read(lines, words)
        self._reading.pop()

    def _dump(self, words: str, where: str) -> None:
        table, *columns = words.lower().replace(",", " ").split() or [""]
        columns = columns or list(self._connection.columns.get(table, ()))
        if not columns:
            self._fail(f"{where}the server doesn't tell which columns {shown(table) or 'a table'} has: .dump TABLE COLUMN..")
            return
        request = f"SELECT {', '.join(columns)} FROM {table}"
        try:
            rows = self._connection.cursor().execute(request).fetchall()
        except ifdb.Error as error:
            self._refuse(where, error, request)
            return
        print(",".join(columns))
        for line in map(ifdb_csv.written, rows):
            print(shown(line) if sys.stdout.isatty() else line)

    def _import(self, words: str, where: str) -> None:
        file, _, table = words.rpartition(" ")
        path = pathlib.Path(file.strip()).expanduser()
        begun = time.perf_counter()
        importing, progress = None, Progress(shown(file))
        try:
            with open_input(path) as lines:
                importing = ifdb_csv.Import(self._session, self._connection, lines, table)
                total = importing.run(progress.tell)
        except OSError as fault:
            self._fail(f"{where}can't read {shown(file) or 'nothing'}: {fault.strerror}")
        except (ifdb.Error, ifdb_csv.BadLine) as fault:
            progress.clear()
            line = importing.line if importing else 1
            self._fail(f"{where}{shown(file)}:{f'{line}:' if line else ''} {shown(str(fault))}")
            self._note_end(LOST)
        else:
            progress.clear()
            print(", ".join(filter(None, ["OK", counted(total), self._time(time.perf_counter() - begun)])))

    def _quit(self, words: str, where: str) -> None:
        self._session.close()
        self._note_end(self.status)


def open_input(source: Union[pathlib.Path, int]) -> TextIO:
    """A file of lines, which a newline ends and nothing else. Bytes that are no UTF-8 fail where they would be sent."""
    return open(source, encoding="utf-8", errors="surrogateescape", newline="\n")


def talk(shell: Shell) -> None:
    """Runs the lines that are typed at the terminal. A refusal there is no failure of the shell."""
    while not shell.is_over:
        try:
            line = input(shell.prompt())
        except EOFError:
            print()
            return
        except KeyboardInterrupt:
            print()
            continue
        if readline and line.strip() and not _HOLDS_KEY.search(line):
            readline.add_history(line)
        shell.run(line)
        if shell.status == REFUSED:
            shell.status = DONE


class History:
    """The lines of earlier sessions, and what Tab completes, for the length of a `with` block. readline lets nobody else read the file
    that it makes."""

    def __init__(self, completer: Completer) -> None:
        self._path = pathlib.Path(os.environ.get("IFDB_HISTORY") or "~/.ifdb_history").expanduser()
        self._completer = completer

    def __enter__(self) -> None:
        if readline:
            readline.set_auto_history(False)
            readline.set_history_length(HISTORY_LINES)
            try:
                readline.read_history_file(self._path)
            except OSError:
                pass  # there is none yet
            for place in range(readline.get_current_history_length()):
                self._completer.learn(readline.get_history_item(place + 1))
            readline.set_completer_delims(" \t(),;=<>+-*'")
            readline.set_completer(self._completer)
            readline.parse_and_bind("bind ^I rl_complete" if "libedit" in (readline.__doc__ or "") else "tab: complete")

    def __exit__(self, *_: object) -> None:
        if readline:
            try:
                readline.write_history_file(self._path)
            except OSError as fault:
                print(f"the history isn't kept: {fault}", file=sys.stderr)


# ---- The command line


def options_of(words: Optional[Sequence[str]]) -> argparse.Namespace:
    parser = argparse.ArgumentParser(
        description=__doc__, epilog=STATUSES, formatter_class=argparse.RawDescriptionHelpFormatter
    )
    parser.add_argument("port", type=int, metavar="PORT")
    parser.add_argument("user", metavar="USER", help="the principal")
    parser.add_argument("file", nargs="?", type=pathlib.Path, metavar="FILE", help="its lines are run, and then it is over")
    parser.add_argument("--host", default="127.0.0.1")
    parser.add_argument("--key", help="the principal's key")
    parser.add_argument("--timeout", type=float, metavar="SECONDS", help="how long a reply may take; without an end if left out")
    parser.add_argument("--authority", metavar="FILE", help="speaks TLS, with a server whose certificate this authority made")
    parser.add_argument("--certificate", metavar="FILE", help="speaks TLS, and shows this certificate, with its key in the file")
    parser.add_argument("--bail", action="store_true", help="ends at the first line that is refused or fails")
    options = parser.parse_args(words)
    if options.key is None:
        options.key = os.environ.get("IFDB_KEY")
    if options.key is None and sys.stdin.isatty():
        options.key = getpass.getpass(f"key of {options.user}: ")
    if options.key is None:
        parser.error("no key: give --key, or set IFDB_KEY")
    return options


def connected(options: argparse.Namespace) -> ifdb.Session:
    """A session that has said HELLO."""
    hello = f"HELLO {ifdb.name(options.user)} KEY {ifdb.literal(options.key)}"
    session = ifdb.Session(options.port, options.host, options.timeout, ssl=context_of(options))
    session.ask(hello)
    return session


def context_of(options: argparse.Namespace) -> Optional[ssl.SSLContext]:
    """How TLS is spoken, if it is."""
    if options.authority is None and options.certificate is None:
        return None
    context = ssl.create_default_context(cafile=options.authority)
    if options.certificate is not None:
        context.load_cert_chain(options.certificate)
    return context


def played(options: argparse.Namespace, session: ifdb.Session) -> int:
    """Runs the input, and returns the status."""
    is_terminal = options.file is None and sys.stdin.isatty()
    shell = Shell(session, options.user.lower(), timing=is_terminal, bail=options.bail)
    if is_terminal:
        with History(shell.completer):
            talk(shell)
    else:
        with open_input(options.file or sys.stdin.fileno()) as lines:
            shell.read(lines, str(options.file or "stdin"))
    return shell.status


def main(words: Optional[Sequence[str]] = None) -> int:
    options = options_of(words)
    for stream in (sys.stdout, sys.stderr):
        if hasattr(stream, "reconfigure"):
            stream.reconfigure(errors="backslashreplace")
    session = None
    try:
        session = connected(options)
        return played(options, session)
    except ifdb.Error as error:
        print(f"ifdb_shell: {error}", file=sys.stderr)
        return LOST
    except BrokenPipeError:
        os.dup2(os.open(os.devnull, os.O_WRONLY), sys.stdout.fileno())  # else the interpreter would tell of it at its end
        return REFUSED
    except OSError as fault:
        print(f"ifdb_shell: {fault}", file=sys.stderr)
        return REFUSED
    except KeyboardInterrupt:
        print("ifdb_shell: interrupted", file=sys.stderr)
        return LOST
    finally:
        if session is not None:
            session.close()


if __name__ == "__main__":
    sys.exit(main())
