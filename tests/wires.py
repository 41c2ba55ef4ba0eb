"""Clients with a raw socket, for tests of servers that answer lines: what each sends, and what has to come."""

from __future__ import annotations

import contextlib
import socket
import threading
import time
from collections.abc import Callable, Iterator
from typing import Optional, Tuple

PATIENCE = 30.0
"""Seconds that a client waits for what comes at once."""


class Wrong(Exception):
    """A client saw something else than it should."""


def check(holds: bool, what: str) -> None:
    if not holds:
        raise Wrong(what)


class Client:
    """A client, which sends lines and reads replies."""

    def __init__(self, port: int, room: Optional[int] = None) -> None:
        """The system keeps about `room` bytes for it that it hasn't read, if that is said."""
        self.link = socket.socket()
        self.link.settimeout(PATIENCE)
        if room is not None:
            self.link.setsockopt(socket.SOL_SOCKET, socket.SO_RCVBUF, room)
        self.link.connect(("127.0.0.1", port))
        self.link.setsockopt(socket.IPPROTO_TCP, socket.TCP_NODELAY, 1)

    def send(self, data: bytes) -> None:
        self.link.sendall(data)

    def read(self, count: int) -> bytes:
        """So many bytes, or fewer at the end."""
        heard = bytearray()
        while len(heard) < count:
            piece = self.link.recv(min(count - len(heard), 1 << 20))
            if not piece:
                break
            heard += piece
        return bytes(heard)

    def expect(self, want: bytes) -> None:
        heard = self.read(len(want))
        check(heard == want, f"{heard[:40]!r} and so on ({len(heard)} bytes) in place of {want[:40]!r} ({len(want)})")

    def ask(self, line: bytes, reply: bytes) -> None:
        self.send(line + b"\n")
        self.expect(reply + b"\n")

    def expect_end(self) -> None:
        try:
            heard = self.link.recv(1)
        except ConnectionResetError:
            raise Wrong("a reset in place of the end") from None
        check(not heard, "more in place of the end")

    def close(self) -> None:
        self.link.close()


class Aside(threading.Thread):
    """Work of a client that is done beside other work."""

    def __init__(self, work: Callable[[], None]) -> None:
        super().__init__()
        self._work = work
        self._fault: Optional[Exception] = None
        self.start()

    def run(self) -> None:
        try:
            self._work()
        except (OSError, Wrong) as fault:
            self._fault = fault

    def done(self) -> None:
        """Waits for its end, and raises what it raised."""
        self.join()
        if self._fault is not None:
            raise self._fault


Step = Callable[[int], Tuple[bytes, bytes]]
"""A line and its reply, by how many were asked before."""


class Steady(threading.Thread):
    """A client that works beside others, and the longest time for which it waited."""

    def __init__(self, client: Client, step: Step, farewell: bytes) -> None:
        """`farewell` is the reply to BYE, by which it ends."""
        super().__init__()
        self.client = client
        self.longest = 0.0
        self.asked = 0
        self.wrong: Optional[str] = None
        self.stops = threading.Event()
        self._step = step
        self._farewell = farewell

    def run(self) -> None:
        try:
            while not self.stops.is_set():
                begun = time.monotonic()
                self.client.ask(*self._step(self.asked))
                self.longest = max(self.longest, time.monotonic() - begun)
                self.asked += 1
                time.sleep(0.001)
            self.client.ask(b"BYE", self._farewell)
            self.client.expect_end()
        except (OSError, Wrong) as error:
            self.wrong = f"the client beside it: {error}"

    def told(self) -> str:
        return f"the client beside it waited {self.longest * 1000:.1f} ms at the longest, in {self.asked} requests"


@contextlib.contextmanager
def working(steady: Steady) -> Iterator[Steady]:
    """A client that works as long as the block lasts. Raises Wrong where it saw something wrong."""
    steady.start()
    try:
        yield steady
    finally:
        steady.stops.set()
        steady.join()
        steady.client.close()
    if steady.wrong is not None:
        raise Wrong(steady.wrong)
