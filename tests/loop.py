#!/usr/bin/env python3
"""Loops over readiness, asked by clients that behave oddly, each beside one that works.

    tests/loop.py [--loops N] [--idle N] [NAME..]

The program is `crates/bench_loop/out/bench_loop`, or that which the variable BENCH_LOOP names: it says each line back, up to BYE, and
answers a star and a number by so many bytes. Each try has a server of its own. `--loops` is how many loops it has, and `--idle` how
many connections stand idle in the try of that name. With names, those tries alone are made.

Prints a line for each try, with the longest time for which the client beside it waited for a reply. The status is 1 where a client saw
anything but its replies, 69 where the program isn't built, and 0 else.
"""

from __future__ import annotations

import argparse
import contextlib
import os
import pathlib
import resource
import socket
import subprocess
import sys
import threading
import time
from collections.abc import Callable, Iterator
from typing import ContextManager, Dict, List, Optional

from wires import PATIENCE, Client, Steady, Wrong, check, working

ROOT = pathlib.Path(__file__).resolve().parents[1]
PROGRAM = pathlib.Path(os.environ.get("BENCH_LOOP", ROOT / "crates/bench_loop/out/bench_loop"))
NOT_HERE = 69


class Server:
    """A server of one's own."""

    def __init__(self, loops: int, words: Dict[str, int], files: Optional[int]) -> None:
        with socket.socket() as free:
            free.bind(("127.0.0.1", 0))
            self.port: int = free.getsockname()[1]
        terms = {"connections": 20_000, "bytes": 1 << 40, "hello": 60, "idle": 60, "stall": 60, **words}

        def limit() -> None:
            if files is not None:
                resource.setrlimit(resource.RLIMIT_NOFILE, (files, files))

        command = [str(PROGRAM), "serve", str(self.port), str(loops), *map(str, terms.values())]
        self.process = subprocess.Popen(command, preexec_fn=limit)

    def wait(self) -> None:
        """Waits until it listens, and has let go of the connection by which that was tried."""
        until = time.monotonic() + PATIENCE
        while time.monotonic() < until:
            check(self.process.poll() is None, "the server ended")
            with contextlib.suppress(OSError):
                client = Client(self.port)
                client.ask(b"BYE", b"BYE")
                client.expect_end()
                client.close()
                return
            time.sleep(0.02)
        raise Wrong("the server doesn't listen")

    def memory(self) -> int:
        """Its resident memory, in bytes."""
        words = pathlib.Path(f"/proc/{self.process.pid}/statm").read_text().split()
        return int(words[1]) * resource.getpagesize()

    def end(self) -> None:
        self.process.kill()
        self.process.wait()


@contextlib.contextmanager
def served(loops: int, files: Optional[int] = None, **terms: int) -> Iterator[Server]:
    server = Server(loops, terms, files)
    try:
        server.wait()
        yield server
        check(server.process.poll() is None, "the server ended")
    finally:
        server.end()


def beside(server: Server) -> ContextManager[Steady]:
    """A client that is said back what it says, as long as the block lasts."""
    return working(Steady(Client(server.port), lambda asked: (b"steady %d" % asked,) * 2, b"BYE"))


def sends_and_reads_nothing(loops: int) -> str:
    """4 MB of lines are sent by one that reads nothing for a while, three times over."""
    lines = b"".join(b"%07d\n" % number for number in range(1 << 19))
    with served(loops) as server, beside(server) as steady:
        client = Client(server.port)
        for pause in (0.5, 1.0, 2.0):
            sender = threading.Thread(target=client.send, args=(lines,))
            sender.start()
            time.sleep(pause)
            client.expect(lines)
            sender.join()
        client.ask(b"BYE", b"BYE")
        client.expect_end()
    return steady.told()


def sends_a_byte_at_a_time(loops: int) -> str:
    with served(loops) as server, beside(server) as steady:
        client = Client(server.port)
        for number in range(40):
            line = b"line %d\n" % number
            for place in range(len(line)):
                client.send(line[place : place + 1])
                time.sleep(0.001)
            client.expect(line)
        client.close()
    return steady.told()


def stops_in_the_middle_of_a_reply(loops: int) -> str:
    """A reply of 20 MB, in the middle of which the client reads nothing for a while, and then asks more."""
    count = 20_000_000
    with served(loops) as server, beside(server) as steady:
        client = Client(server.port)
        client.send(b"*%d\nbehind it\n" % count)
        client.expect(b"x" * (count // 2))
        time.sleep(2)
        client.expect(b"x" * (count - count // 2) + b"\nbehind it\n")
        client.ask(b"more", b"more")
        client.close()
    return steady.told()


def says_bye_with_more_behind_it(loops: int) -> str:
    with served(loops) as server, beside(server) as steady:
        for behind in (1, 1000, 1_000_000):
            client = Client(server.port)
            client.send(b"first\nBYE\n" + b"z" * behind)
            client.expect(b"first\nBYE\n")
            client.expect_end()
            client.close()
    return steady.told()


def sends_too_long_a_line(loops: int) -> str:
    with served(loops) as server, beside(server) as steady:
        client = Client(server.port)
        longest = b"y" * 65_535
        client.ask(longest, longest)
        client.send(b"before\n" + longest + b"y" * 500_000)
        client.expect(b"before\n!\n")
        client.expect_end()
        client.close()
    return steady.told()


def sends_many_lines_at_once(loops: int) -> str:
    """10,000 lines of one, again and again, beside one line of another."""
    lines = b"".join(b"%d\n" % number for number in range(10_000))
    with served(loops) as server, beside(server) as steady:
        client = Client(server.port)
        for _ in range(50):
            client.send(lines)
            client.expect(lines)
        client.close()
    return steady.told()


def shuts_behind_many_lines(loops: int) -> str:
    """The end of the input lies behind more than a read takes, and comes with the event of these bytes."""
    with served(loops) as server, beside(server) as steady:
        for size in (100, 100_000, 300_000, 1_000_000):
            lines = b"".join(b"%07d\n" % number for number in range(size // 8))
            client = Client(server.port)
            sender = threading.Thread(target=client.send, args=(lines,))
            sender.start()
            client.expect(lines[: len(lines) // 2])
            sender.join()
            client.link.shutdown(socket.SHUT_WR)
            client.expect(lines[len(lines) // 2 :])
            client.expect_end()
            client.close()
    return steady.told()


def leave_in_all_ways(loops: int) -> str:
    """Clients that leave at once, behind half a line, behind a line whose reply they don't read, or by shutting one side."""
    with served(loops) as server, beside(server) as steady:
        for number in range(200):
            client = Client(server.port)
            client.send([b"", b"half", b"line\n", b"*300000\n"][number % 4])
            if number % 8 == 2:
                client.link.shutdown(socket.SHUT_WR)
                client.expect(b"line\n")
                client.expect_end()
            client.close()
    return steady.told()


def stand_idle(loops: int, count: int) -> str:
    """Many connections, each of which asks once, then stands idle, and asks once more at the end."""
    with served(loops) as server, beside(server) as steady:
        before = server.memory()
        begun = time.monotonic()
        clients = [Client(server.port) for _ in range(count)]
        connected = time.monotonic() - begun
        for client in clients:
            client.send(b"here\n")
        for client in clients:
            client.expect(b"here\n")
        time.sleep(2)
        memory = server.memory() - before
        for client in clients:
            client.send(b"still here\n")
        for client in clients:
            client.expect(b"still here\n")
        for client in clients:
            client.close()
    said = f"{count} came in {connected:.1f} s and took {memory / count:.0f} bytes each"
    return f"{said}; {steady.told()}"


def lack_descriptors(loops: int) -> str:
    """100 connections at a server that may have 64 descriptors: the others wait until some have left."""
    with served(loops, files=64) as server, beside(server) as steady:
        clients = [Client(server.port) for _ in range(100)]
        for client in clients:
            client.send(b"BYE\n")
        for client in clients:
            client.expect(b"BYE\n")
            client.expect_end()
            client.close()
    return steady.told()


def are_too_many(loops: int) -> str:
    """The connections past the most are closed at once, and one more comes in where one has left."""
    with served(1, connections=5) as server, beside(server) as steady:
        clients = [Client(server.port) for _ in range(4)]
        for client in clients:
            client.ask(b"in", b"in")
        late = Client(server.port)
        check(late.read(1) == b"", "one too many was served")
        clients[0].ask(b"BYE", b"BYE")
        clients[0].expect_end()
        time.sleep(0.1)
        Client(server.port).ask(b"in too", b"in too")
        del loops
    return steady.told()


def are_put_out(loops: int) -> str:
    """Who says nothing, falls silent, or takes nothing of its reply is put out; who works isn't."""
    with served(loops, hello=2, idle=4, stall=6) as server, beside(server) as steady:
        begun = time.monotonic()
        mute, silent, stalled, slow = (Client(server.port) for _ in range(4))
        silent.ask(b"once", b"once")
        stalled.send(b"*50000000\n")
        slow.send(b"*50000000\n")
        slow.read(1000)
        mute.expect_end()
        check(time.monotonic() - begun < 2 + 3, "the mute one stayed")
        silent.expect_end()
        check(time.monotonic() - begun < 4 + 3, "the silent one stayed")
        # One that takes something now and then stays.
        for _ in range(9):
            slow.read(3_000_000)
            time.sleep(1)
        check(stalled.read(50_000_001) != b"x" * 50_000_000 + b"\n", "the stalled one got all")
        check(len(slow.read(22_999_001)) == 22_999_001, "the slow one lacks bytes")
        for client in (mute, silent, stalled, slow):
            client.close()
    return steady.told()


def tries(loops: int, idle: int) -> Dict[str, Callable[[], str]]:
    plain: List[Callable[[int], str]] = [
        sends_and_reads_nothing,
        sends_a_byte_at_a_time,
        stops_in_the_middle_of_a_reply,
        says_bye_with_more_behind_it,
        sends_too_long_a_line,
        sends_many_lines_at_once,
        shuts_behind_many_lines,
        leave_in_all_ways,
        lack_descriptors,
        are_too_many,
        are_put_out,
    ]
    made: Dict[str, Callable[[], str]] = {}
    for one in plain:
        made[one.__name__] = lambda one=one: one(loops)  # type: ignore[misc]
    made["stand_idle"] = lambda: stand_idle(loops, idle)
    return made


def main() -> int:
    parser = argparse.ArgumentParser()
    parser.add_argument("--loops", type=int, default=2)
    parser.add_argument("--idle", type=int, default=10_000)
    parser.add_argument("names", nargs="*")
    words = parser.parse_args()
    if not PROGRAM.exists():
        print(f"tests/loop.py: nothing was tried: there is no program {PROGRAM}", file=sys.stderr)
        return NOT_HERE
    hard = resource.getrlimit(resource.RLIMIT_NOFILE)[1]
    resource.setrlimit(resource.RLIMIT_NOFILE, (hard, hard))
    status = 0
    for name, made in tries(words.loops, words.idle).items():
        if words.names and name not in words.names:
            continue
        begun = time.monotonic()
        try:
            said = made()
        except (OSError, Wrong) as error:
            said, status = f"WRONG: {error or type(error).__name__}", 1
        print(f"{name}: {said} ({time.monotonic() - begun:.1f} s)", flush=True)
    return status


if __name__ == "__main__":
    sys.exit(main())
