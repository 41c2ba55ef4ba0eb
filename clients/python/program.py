"""The built program, for tests, benchmarks and examples: where it is, what it answers, and a served one of one's own."""

from __future__ import annotations

import contextlib
import os
import pathlib
import re
import resource
import signal
import socket
import subprocess
import time
from collections.abc import Iterable, Iterator, Mapping, Sequence
from types import TracebackType
from typing import IO, Dict, List, NamedTuple, Optional, Tuple, Type, TypeVar, Union

ROOT = pathlib.Path(__file__).resolve().parents[2]
PATIENCE = 20.0
"""Seconds that a test waits for what comes at once."""

Word = Union[str, pathlib.Path]

ADMIN_KEY_FILE = ROOT / "tests/admin_key.txt"
ADMIN_KEY = ADMIN_KEY_FILE.read_text().rstrip("\n")
"""The key of `admin` where these serve a database in a file."""
HELLO = f"HELLO admin KEY '{ADMIN_KEY}'"

Some = TypeVar("Some", bound="Session")

_ROWS = re.compile(rb"(?:[0-9]+ )?ROWS ([0-9]+) [0-9]+\n?")
_REFUSAL = re.compile(r"(?:[0-9]+ )?ERR [0-9]+ ([A-Za-z]+)( [0-9]+)?")
_LONGEST_LINE = 65_535  # of a trace, its mark among them and its newline not


class Ended(Exception):
    """The program, or its connection, ended before its reply did."""


def path() -> pathlib.Path:
    """The built program: that which the variable IFDB of the environment names, else this repository's."""
    return pathlib.Path(os.environ.get("IFDB", ROOT / "crates/ifdb/out/ifdb")).absolute()


class Refused(Exception):
    """The program refused a line, by the error of this name."""

    def __init__(self, line: str, name: str) -> None:
        super().__init__(f"{line[:60]} was refused: {name}")
        self.name = name


class Ran(NamedTuple):
    """What a run came to: its exit status, what it wrote, and what it said on standard error."""

    status: int
    written: bytes
    said: bytes


def run(*words: Word, given: bytes = b"", env: Optional[Mapping[str, str]] = None) -> Ran:
    """Runs the program by some words over an input, with variables added to its environment."""
    done = subprocess.run([path(), *words], input=given, capture_output=True, env={**os.environ, **(env or {})}, check=False)
    return Ran(done.returncode, done.stdout, done.stderr)


class Timed(NamedTuple):
    """What a command wrote, and the seconds that it took on the clock and of the processor."""

    written: bytes
    clock: float
    processor: float


def timed(*words: Word, given: bytes = b"") -> Timed:
    """Runs a command, which has to end with 0, over an input from a pipe. No other child of this process may end meanwhile."""
    before, begun = resource.getrusage(resource.RUSAGE_CHILDREN), time.monotonic()
    written = subprocess.run(words, input=given, stdout=subprocess.PIPE, check=True).stdout
    clock, after = time.monotonic() - begun, resource.getrusage(resource.RUSAGE_CHILDREN)
    return Timed(written, clock, after.ru_utime + after.ru_stime - before.ru_utime - before.ru_stime)


def can_host() -> bool:
    """Whether the program is there, and has the command `host`."""
    return path().is_file() and b"--file" in run("host").written


# ---- Scripts and their replies


def has_reply(line: bytes) -> bool:
    """Whether a line of a script is a step: it isn't empty, but for a carriage return, and is no comment."""
    text = line.removesuffix(b"\n").removesuffix(b"\r")
    return text != b"" and not text.startswith(b"#")


def steps_of(script: bytes) -> List[bytes]:
    """The lines of a script that have a reply, with their newlines."""
    return [line for line in script.splitlines(keepends=True) if has_reply(line)]


def next_reply(lines: Iterator[bytes]) -> List[bytes]:
    """The lines of the next reply, with their newlines. Of a table's, the first says how many rows follow. Raises Ended where the
    lines end within it."""
    head = next(lines, b"")
    rows = _ROWS.fullmatch(head)
    reply = [head, *(next(lines, b"") for _ in range(int(rows[1]) if rows else 0))]
    if not all(line.endswith(b"\n") for line in reply):
        raise Ended(f"within the reply {reply[:3]!r}")
    return reply


def replies_of(written: bytes) -> List[List[bytes]]:
    """The replies that were written, each with its lines."""
    lines = iter(written.splitlines(keepends=True))
    replies = []
    for head in lines:
        rows = _ROWS.fullmatch(head)
        replies.append([head, *(next(lines) for _ in range(int(rows[1]) if rows else 0))])
    return replies


class Session:
    """Somebody who asks the program one line after another, and hears each reply before the next line."""

    def __init__(self, asked: IO[bytes], told: IO[bytes]) -> None:
        self._asked = asked
        self._told = told

    def ask(self, line: str) -> List[str]:
        """Asks a line, and gives the lines of its reply. Raises Ended where the other side is gone."""
        return [it.decode().removesuffix("\n") for it in self.ask_bytes(line.encode())]

    def answer(self, line: str) -> List[str]:
        """The lines of the reply to a line, which has to be no refusal. Raises Refused where it is one."""
        reply = self.ask(line)
        refusal = _REFUSAL.fullmatch(reply[0])
        if refusal:
            raise Refused(line, refusal[1])
        return reply

    def ask_bytes(self, line: bytes) -> List[bytes]:
        self.send(line)
        try:
            return next_reply(iter(self._told.readline, b""))
        except OSError as fault:
            raise Ended(str(fault)) from fault

    def send(self, line: bytes) -> None:
        """Sends a line that has no reply."""
        try:
            self._asked.write(line + b"\n")
            self._asked.flush()
        except OSError as fault:
            raise Ended(str(fault)) from fault

    def rest(self) -> bytes:
        """What else is told, up to the end. Raises Ended where the other side is cut off."""
        try:
            return self._told.read()
        except OSError as fault:
            raise Ended(str(fault)) from fault

    def close(self) -> None:
        with contextlib.suppress(OSError):  # (of what could not be sent)
            self._asked.close()
        self._told.close()

    def __enter__(self: Some) -> Some:
        return self

    def __exit__(
        self, kind: Optional[Type[BaseException]], fault: Optional[BaseException], trace: Optional[TracebackType]
    ) -> None:
        self.close()


class Piped(Session):
    """The program over pipes, by words that have it read a script, until it is closed."""

    def __init__(self, *words: Word) -> None:
        self.process = subprocess.Popen([path(), *words], stdin=subprocess.PIPE, stdout=subprocess.PIPE)
        assert self.process.stdin and self.process.stdout
        super().__init__(self.process.stdin, self.process.stdout)

    def close(self) -> None:
        """Ends the input, and waits for the program's end."""
        with contextlib.suppress(OSError):
            self._asked.close()
        self.process.wait()
        self._told.close()


def _marked(mark: bytes, line: bytes) -> bytes:
    if len(mark + line) > _LONGEST_LINE + 1:
        raise ValueError("a line is too long for a trace")
    return mark + line


def recorded(script: Iterable[bytes], words: Sequence[Word] = ("run",)) -> Iterator[bytes]:
    """The lines of the trace of a script's run: each line behind `> `, and each line of its reply behind `< `. A line is sent only
    once the reply to the line before it was read. Raises Ended where the program ends early or by another status than 0, and
    ValueError where a line is too long for a trace."""
    with Piped(*words) as session:
        for line in script:
            line = line.removesuffix(b"\n")
            yield _marked(b"> ", line + b"\n")
            if has_reply(line):
                yield from (_marked(b"< ", told) for told in session.ask_bytes(line))
            else:
                session.send(line)
    if session.process.returncode != 0:
        raise Ended(f"with status {session.process.returncode}")


# ---- A served program


def serving(workers: int = 8, links: int = 1_000_000) -> List[Word]:
    """The words that serve from memory, but for those that `Server` adds."""
    return ["serve", f"--workers={workers}", f"--links={links}"]


def hosting(file: Word, **options: int) -> List[Word]:
    """The words that serve the database in a file, with some options, but for those that `Server` adds. `HELLO` is what its admin
    begins with."""
    return ["host", "--file", file, "--admin-key", ADMIN_KEY_FILE, *(f"--{name}={value}" for name, value in options.items())]


def free_port() -> int:
    """A port of this machine that nobody listens at."""
    with socket.socket() as probe:
        probe.bind(("127.0.0.1", 0))
        port = probe.getsockname()[1]
        assert isinstance(port, int)
        return port


def connected(port: int) -> Session:
    """A connection to a served program of this machine, as a session."""
    with socket.create_connection(("127.0.0.1", port), PATIENCE) as link:
        link.setsockopt(socket.IPPROTO_TCP, socket.TCP_NODELAY, 1)
        return Session(link.makefile("wb"), link.makefile("rb"))


class NotServing(OSError):
    """A server ended, or told something else, before it listened."""

    def __init__(self, told: str, status: int) -> None:
        super().__init__(f"{path()} told {told!r} in place of LISTENING, and ended with status {status}")
        self.status = status


class Server:
    """A command that serves, `serving()` or `hosting(file)` with options, until the end of the `with` block."""

    def __init__(
        self,
        command: Sequence[Word] = (),
        limit: int = 2**30,
        quiet: bool = False,
        port: Optional[int] = None,
        limits: Optional[Mapping[int, int]] = None,
    ) -> None:
        """Waits until it listens, and raises NotServing where it doesn't. Without a command it is `serving()`. If `quiet`, what it says
        on standard error is dropped. It serves at a free port, or at `port`, and keeps to `limits` of the system, by their numbers in
        `resource`: a write past RLIMIT_FSIZE fails."""
        self.port = free_port() if port is None else port
        words = [f"--port={self.port}", f"--limit={limit}"]
        said = subprocess.DEVNULL if quiet else None

        def keep_to_limits() -> None:
            for kind, most in (limits or {}).items():
                resource.setrlimit(kind, (most, most))

        self._process = subprocess.Popen(
            [path(), *(command or serving()), *words],
            stdout=subprocess.PIPE,
            stderr=said,
            text=True,
            restore_signals=not limits,  # (Python sets aside the signal that a write past such a limit sends)
            preexec_fn=keep_to_limits if limits else None,
        )
        self.pid = self._process.pid
        assert self._process.stdout is not None
        told = self._process.stdout.readline()
        if told != f"LISTENING {self.port}\n":
            with contextlib.suppress(subprocess.TimeoutExpired):
                self._process.wait(PATIENCE)
            self.stop()
            raise NotServing(told, self._process.returncode)

    def summary(self, patience: float = PATIENCE) -> Dict[str, int]:
        """What the server counts at its end, which comes when it has served all its connections."""
        told, _ = self._process.communicate(timeout=patience)
        return {word: int(number) for word, number in map(str.split, told.splitlines())}

    def status(self, patience: float = PATIENCE) -> int:
        """The status with which it ends."""
        return self._process.wait(patience)

    def is_running(self) -> bool:
        return self._process.poll() is None

    def terminated(self, patience: float = PATIENCE) -> Tuple[int, str]:
        """Ends the server by SIGTERM, and gives its status and what it wrote behind LISTENING."""
        self._process.send_signal(signal.SIGTERM)
        told, _ = self._process.communicate(timeout=patience)
        return self._process.returncode, told

    def resident(self) -> int:
        """The bytes of its memory that the system has for it now."""
        return int(pathlib.Path(f"/proc/{self.pid}/statm").read_text().split()[1]) * resource.getpagesize()

    def stop(self) -> None:
        """Ends the server at once, if it hasn't ended."""
        self._process.kill()
        self._process.wait()
        if self._process.stdout is not None:
            self._process.stdout.close()

    def __enter__(self) -> Server:
        return self

    def __exit__(
        self, kind: Optional[Type[BaseException]], fault: Optional[BaseException], trace: Optional[TracebackType]
    ) -> None:
        self.stop()
