#!/usr/bin/env python3
"""Connections that come and go, one at a time, and the memory that the server holds behind them.

A database in memory is served, and then one in a file. So many connections as are said, 200,000 if none is, say HELLO and go, every
second one by BYE and the others by a reset. The server may hold no more than 512 KiB more behind all of them than behind the first
thousandth part, and `serve` counts each as a session.

    tests/gone.py [CONNECTIONS]       the variable IFDB names another program than crates/ifdb/out/ifdb
"""

from __future__ import annotations

import pathlib
import socket
import struct
import sys
import tempfile

sys.path.append(str(pathlib.Path(__file__).resolve().parents[1] / "clients/python"))
import program  # noqa: E402

CONNECTIONS = 200_000
MORE = 512 * 1024
"""Bytes that the server may hold more."""

RESET = struct.pack("ii", 1, 0)


def come_and_go(port: int, hello: bytes, by_bye: bool) -> None:
    with socket.create_connection(("127.0.0.1", port), program.PATIENCE) as link:
        link.sendall(hello + b"\nBYE\n" if by_bye else hello + b"\n")
        told = b""
        wanted = b"OK\nOK\n" if by_bye else b"OK\n"
        while len(told) < len(wanted):
            more = link.recv(64)
            if not more:
                break
            told += more
        if told != wanted:
            sys.exit(f"gone.py: {told!r} in place of {wanted!r}")
        if not by_bye:
            link.setsockopt(socket.SOL_SOCKET, socket.SO_LINGER, RESET)


def grown(server: program.Server, hello: bytes, connections: int) -> int:
    """By how many bytes the server grew from the first connections to the last."""
    first = max(connections // 1000, 2)
    for n in range(first):
        come_and_go(server.port, hello, n % 2 == 0)
    before = server.resident()
    for n in range(first, connections):
        come_and_go(server.port, hello, n % 2 == 0)
    return server.resident() - before


def main() -> None:
    connections = int(sys.argv[1]) if len(sys.argv) > 1 else CONNECTIONS
    with program.Server(program.serving(workers=1, links=connections)) as server:
        more = grown(server, b"HELLO admin KEY 'admin'", connections)
        counted = server.summary()["sessions"]
    with tempfile.TemporaryDirectory() as folder:
        with program.Server(program.hosting(f"{folder}/database", loops=1)) as server:
            more_hosted = grown(server, program.HELLO.encode(), connections)
    if counted != connections:
        sys.exit(f"gone.py: {counted} sessions were counted in place of {connections}")
    if max(more, more_hosted) > MORE:
        sys.exit(f"gone.py: {connections} connections that are gone left {more} bytes with `serve`, and {more_hosted} with `host`")
    print(f"gone.py: {connections} connections came and went; `serve` grew by {more} bytes, and `host` by {more_hosted}")


if __name__ == "__main__":
    main()
