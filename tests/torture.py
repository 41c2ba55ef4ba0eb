#!/usr/bin/env python3
"""Clients that behave badly at a served ifdb, while a well-behaved one goes on.

    tests/torture.py PORT [--host HOST] [--key KEY] [--times N]

The server has to serve at least three links at once (a worker each), and in all enough links for some ten times N. The well-behaved
client keeps one connection and asks one thing after another; after each try of a bad client, it also makes a new connection.
Prints a table of what the bad clients saw, and what the well-behaved one did. The status is 1 where that one saw anything but its
replies, each within 20 seconds, and 0 else.
"""

from __future__ import annotations

import argparse
import collections
import socket
import struct
import sys
import threading
import time
from collections.abc import Iterable, Iterator
from typing import BinaryIO, Counter, List, Tuple

PATIENCE = 20

At = Tuple[str, int]
Exchange = Tuple[str, str]


def connected(at: At) -> socket.socket:
    link = socket.create_connection(at, timeout=PATIENCE)
    link.setsockopt(socket.IPPROTO_TCP, socket.TCP_NODELAY, 1)
    return link


def reset(link: socket.socket) -> None:
    """Closes the connection with a reset in place of an end."""
    link.setsockopt(socket.SOL_SOCKET, socket.SO_LINGER, struct.pack("ii", 1, 0))
    link.close()


def rest(link: socket.socket) -> str:
    """What comes up to the end of the connection, in words."""
    heard = b""
    try:
        while True:
            piece = link.recv(65536)
            if not piece:
                ending = "the end"
                break
            heard += piece
    except ConnectionResetError:
        ending = "a reset"
    except socket.timeout:
        ending = f"nothing for {PATIENCE} s"
    lines = heard.decode(errors="replace").splitlines()
    told = [repr(it) for it in lines[:3]] + [f"{len(lines) - 3} lines more"] * (len(lines) > 3)
    return ", ".join(told + [ending])


def vanish(link: socket.socket) -> str:
    link.sendall(b"SHOW LABEL\n")
    link.close()
    return "left without reading"


def vanish_at_once(link: socket.socket) -> str:
    link.close()
    return "left"


def reset_at_once(link: socket.socket) -> str:
    reset(link)
    return "reset the connection"


def reset_behind_a_request(link: socket.socket) -> str:
    link.sendall(b"SHOW LABEL\n")
    reset(link)
    return "reset the connection"


def half_a_line(link: socket.socket) -> str:
    link.sendall(b"SHOW LAB")
    link.close()
    return "left"


def half_a_line_and_end(link: socket.socket) -> str:
    link.sendall(b"SHOW LAB")
    link.shutdown(socket.SHUT_WR)
    return rest(link)


def silence(link: socket.socket) -> str:
    time.sleep(3)
    link.sendall(b"BYE\n")
    return rest(link)


def long_line(link: socket.socket) -> str:
    try:
        link.sendall(b"x" * 200_000 + b"\n")
    except OSError as fault:
        return f"{type(fault).__name__} while it sent; {rest(link)}"
    return rest(link)


def no_text(link: socket.socket) -> str:
    link.sendall(b"\xff\x00\xfe\nBYE\n")
    return rest(link)


def many_at_once(link: socket.socket) -> str:
    link.sendall(b"SHOW LABEL\n" * 1000 + b"BYE\n")
    return rest(link)


def read_nothing(link: socket.socket) -> str:
    """Sends requests until the server takes no more of them for a second, since its replies aren't read."""
    link.settimeout(1)
    sent = 0
    try:
        for _ in range(2000):
            link.sendall(b"SHOW LABEL\n" * 1000)
            sent += 1000
        held = ""
    except socket.timeout:
        held = ", then held"
    except OSError as fault:
        held = f", then {type(fault).__name__}"
    link.close()
    return f"sent some {sent // 100_000 * 100_000:,} requests{held}"


BAD = [
    vanish_at_once,
    vanish,
    reset_at_once,
    reset_behind_a_request,
    half_a_line,
    half_a_line_and_end,
    silence,
    long_line,
    no_text,
    many_at_once,
    read_nothing,
]


class Good(threading.Thread):
    """The well-behaved client: it asks the same few things over and over, and knows each reply."""

    def __init__(self, at: At, key: str) -> None:
        super().__init__(daemon=True)
        self.at, self.key = at, key
        self.faults: List[str] = []
        self.replies, self.slowest = 0, 0.0
        self.over = threading.Event()

    def talk(self, link: socket.socket, lines: BinaryIO, exchanges: Iterable[Exchange]) -> None:
        for request, wanted in exchanges:
            begun = time.monotonic()
            link.sendall(request.encode() + b"\n")
            reply = lines.readline().decode()
            self.slowest = max(self.slowest, time.monotonic() - begun)
            self.replies += 1
            if reply != wanted + "\n":
                raise ValueError(f"{request} was answered {reply!r}")

    def session(self, exchanges: Iterable[Exchange]) -> None:
        """A connection of its own, with these requests and their replies between HELLO and BYE."""
        try:
            link = connected(self.at)
            lines = link.makefile("rb")
            self.talk(link, lines, [(f"HELLO admin KEY '{self.key}'", "OK")])
            for exchange in exchanges:
                self.talk(link, lines, [exchange])
            self.talk(link, lines, [("BYE", "OK")])
            if lines.readline():
                raise ValueError("something came behind the reply to BYE")
            link.close()
        except (OSError, ValueError) as fault:
            self.faults.append(f"{type(fault).__name__}: {fault}")

    def exchanges(self) -> Iterator[Exchange]:
        while not self.over.is_set():
            yield "BEGIN", "OK"
            yield "SHOW LABEL", "LABEL ()"
            yield "COMMIT", "OK"

    def run(self) -> None:
        self.session(self.exchanges())


def main() -> int:
    parser = argparse.ArgumentParser(description=__doc__, formatter_class=argparse.RawDescriptionHelpFormatter)
    parser.add_argument("port", type=int)
    parser.add_argument("--host", default="127.0.0.1")
    parser.add_argument("--key", default="admin")
    parser.add_argument("--times", type=int, default=3)
    options = parser.parse_args()
    at = (options.host, options.port)
    good, newcomer = Good(at, options.key), Good(at, options.key)
    good.start()
    for bad in BAD:
        seen: Counter[str] = collections.Counter()
        for _ in range(options.times):
            try:
                seen[bad(connected(at))] += 1
            except OSError as fault:
                seen[f"{type(fault).__name__}: {fault}"] += 1
            newcomer.session([("SHOW LABEL", "LABEL ()")])
        for what, count in seen.items():
            print(f"{bad.__name__.replace('_', ' '):24} {count} x  {what}", flush=True)
    good.over.set()
    good.join(PATIENCE + 1)
    if good.is_alive():
        good.faults.append("a reply didn't come")
    for name, client in (("the well-behaved client", good), ("its new connections", newcomer)):
        print(f"{name:24} {client.replies:,} replies, the slowest after {client.slowest * 1000:.1f} ms")
        for told in client.faults:
            print(f"{'':24} {told}")
    return 1 if good.faults or newcomer.faults else 0


if __name__ == "__main__":
    sys.exit(main())
