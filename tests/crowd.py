#!/usr/bin/env python3
"""Many connections to `ifdb host`, and clients that behave oddly, each beside one that works.

    tests/crowd.py [--idle N] [NAME..]      the variable IFDB names another program than crates/ifdb/out/ifdb

Each try has a server of its own, over a database of its own. `--idle` is how many connections stand idle in the try of that name (2,000);
it makes do with fewer where the system lets a process have fewer descriptors. With names, those tries alone are made.

Prints a line for each try, with the longest time for which the client beside it waited for a reply: that decides nothing, up to
30 seconds. The status is 1 where a client saw anything but its replies, 69 where the program has no command `host`, and 0 else.
"""

from __future__ import annotations

import argparse
import contextlib
import pathlib
import resource
import shutil
import socket
import sys
import tempfile
import time
from collections.abc import Callable, Iterator
from typing import Dict, List, Mapping, Optional, Sequence, Tuple

sys.path.append(str(pathlib.Path(__file__).resolve().parents[1] / "clients/python"))
import program  # noqa: E402
from wires import PATIENCE, Aside, Client, Steady, Wrong, check, working  # noqa: E402

NOT_HERE = 69
NOTES, SIZE = 100, 120
"""How many notes a database has, and how many bytes each."""
LONG, LONG_SIZE = 8_000, 1_000
"""The rows of a long reply, and their bytes."""
SMALL = 1 << 18
"""What the system keeps for a client that stops reading, about: less than it would else."""
DESCRIPTORS = 64
MOST_EACH = 8_192
"""The bytes of the server's memory that an idle connection may take: far more than one should, and far fewer than a thread's."""
QUICK = 1.0
"""Seconds within which a line is answered beside 10,000 others."""


def note(number: int) -> Tuple[bytes, bytes]:
    """A look at a note, and its reply."""
    key = number % NOTES
    return b"SELECT id, body FROM note WHERE id = %d" % key, b"ROWS 1 2\n%d\t%s" % (key, b"%04d" % key * (SIZE // 4))


def lines_of(count: int) -> Tuple[bytes, bytes]:
    """So many looks at notes, and their replies."""
    steps = [note(number) for number in range(count)]
    return b"".join(line + b"\n" for line, _ in steps), b"".join(reply + b"\n" for _, reply in steps)


LONG_LOOK = b"SELECT body FROM page\n"
LONG_REPLY = b"ROWS %d 1\n" % LONG + (b"x" * LONG_SIZE + b"\n") * LONG


def greeted(port: int, room: Optional[int] = None) -> Client:
    """A client that has said HELLO."""
    client = Client(port, room)
    client.ask(program.HELLO.encode(), b"OK")
    return client


def beside(server: program.Server) -> Steady:
    """A client that looks at one note after another."""
    return Steady(greeted(server.port), note, b"OK")


def make(file: pathlib.Path) -> None:
    """Makes a database of notes and pages."""
    with program.Server(program.hosting(file)) as server, program.connected(server.port) as session:
        session.answer(program.HELLO)
        session.answer("CREATE TABLE note (id INT, body TEXT, PRIMARY KEY (id))")
        session.answer("CREATE TABLE page (id INT, body TEXT, PRIMARY KEY (id))")
        notes = (f"({number}, '{f'{number:04}' * (SIZE // 4)}')" for number in range(NOTES))
        session.answer(f"INSERT INTO note VALUES {', '.join(notes)}")
        for first in range(0, LONG, 50):
            pages = (f"({number}, '{'x' * LONG_SIZE}')" for number in range(first, first + 50))
            session.answer(f"INSERT INTO page VALUES {', '.join(pages)}")


class Place:
    """A database of which each try gets a copy, and how it is served."""

    def __init__(self, folder: pathlib.Path) -> None:
        self._made, self._file = folder / "made", folder / "db"
        make(self._made)

    @contextlib.contextmanager
    def served(self, limits: Optional[Mapping[int, int]] = None, **options: int) -> Iterator[program.Server]:
        """A server over a copy, which has to run still behind the block."""
        shutil.copy(self._made, self._file)
        with program.Server(program.hosting(self._file, **options), limits=limits) as server:
            yield server
            check(server.is_running(), "the server ended")


def answered(clients: Sequence[Client], seconds: float) -> List[Client]:
    """Those of some clients that hear OK to a HELLO within some seconds in all; the others were told nothing yet."""
    until, heard = time.monotonic() + seconds, []
    for client in clients:
        client.link.settimeout(max(until - time.monotonic(), 0.001))
        with contextlib.suppress(socket.timeout):
            client.expect(b"OK\n")
            heard.append(client)
        client.link.settimeout(PATIENCE)
    return heard


# ---- The tries


def stand_idle(place: Place, count: int) -> str:
    """Many connections, each of which has said HELLO."""
    room = resource.getrlimit(resource.RLIMIT_NOFILE)[0] - 100
    count = min(count, room)
    with place.served(connections=count + 100) as server, working(beside(server)) as steady:
        before, begun = server.resident(), time.monotonic()
        clients = [greeted(server.port) for _ in range(count)]
        came = time.monotonic() - begun
        time.sleep(1)
        each = (server.resident() - before) / count
        check(each < MOST_EACH, f"an idle connection takes {each:.0f} bytes of memory")
        for client in clients:
            client.ask(b"SHOW LABEL", b"LABEL ()")
        for client in clients:
            client.close()
    return f"{count} came in {came:.1f} s and took {each:.0f} bytes of memory each; {steady.told()}"


def sends_many_lines_at_once(place: Place) -> str:
    """10,000 lines in one write, beside one line of another client of the same loop, again and again."""
    lines, replies = lines_of(10_000)
    with place.served(loops=1) as server, working(beside(server)) as steady:
        client, other, longest = greeted(server.port), greeted(server.port), 0.0
        for round_ in range(5):
            client.send(lines)
            reader, goes_on = Aside(lambda: client.expect(replies)), True
            while goes_on:
                goes_on = reader.is_alive()
                begun = time.monotonic()
                other.ask(*note(round_))
                longest = max(longest, time.monotonic() - begun)
            reader.done()
        client.ask(*note(1))
        check(longest < QUICK, f"one line waited for {longest:.1f} s beside 10,000")
        client.close()
        other.close()
    return f"one line waited for {longest * 1000:.1f} ms at the longest; {steady.told()}"


def commits_many_lines_at_once(place: Place) -> str:
    """500 commits in one write, beside another client's commits: each is there in its order."""
    lines = b"".join(b"INSERT INTO note VALUES (%d, NULL)\n" % number for number in range(1000, 1500))
    with place.served(loops=1) as server, working(beside(server)) as steady:
        client, other, longest = greeted(server.port), greeted(server.port), 0.0
        client.send(lines)
        for number in range(2000, 2020):
            begun = time.monotonic()
            other.ask(b"INSERT INTO note VALUES (%d, NULL)" % number, b"OK 1")
            longest = max(longest, time.monotonic() - begun)
        client.expect(b"OK 1\n" * 500)
        client.ask(b"SELECT COUNT(*) FROM note WHERE id >= 1000", b"ROWS 1 1\n520")
        client.close()
        other.close()
    return f"one commit waited for {longest * 1000:.1f} ms at the longest; {steady.told()}"


def sends_and_reads_nothing(place: Place) -> str:
    """4 MB of lines, whose replies are read only once the client has read nothing for a while; twice over."""
    lines, replies = lines_of(110_000)
    check(len(lines) > 4_000_000, "these are fewer than 4 MB")
    with place.served(loops=2) as server, working(beside(server)) as steady:
        client = greeted(server.port, SMALL)
        for pause in (0.5, 1.5):
            sender = Aside(lambda: client.send(lines))
            time.sleep(pause)
            client.expect(replies)
            sender.done()
        client.ask(b"BYE", b"OK")
        client.expect_end()
        client.close()
    return steady.told()


def sends_a_byte_at_a_time(place: Place) -> str:
    with place.served(loops=2) as server, working(beside(server)) as steady:
        client = greeted(server.port)
        for number in range(20):
            line, reply = note(number)
            for at in range(len(line)):
                client.send(line[at : at + 1])
                time.sleep(0.001)
            client.ask(b"", reply)
        client.close()
    return steady.told()


def stops_in_the_middle_of_a_reply(place: Place) -> str:
    """A long reply, in the middle of which the client reads nothing for a while; it has asked more behind it."""
    half = len(LONG_REPLY) // 2
    with place.served(loops=2) as server, working(beside(server)) as steady:
        client = greeted(server.port, SMALL)
        line, reply = note(7)
        client.send(LONG_LOOK + line + b"\n")
        client.expect(LONG_REPLY[:half])
        time.sleep(1.5)
        client.expect(LONG_REPLY[half:] + reply + b"\n")
        client.ask(*note(8))
        client.close()
    return steady.told()


def are_put_out(place: Place) -> str:
    """Who says nothing, falls silent, or takes nothing of its reply is put out in time; who works isn't, nor who reads slowly."""
    with place.served(loops=2, hello=1, idle=2, stall=2) as server, working(beside(server)) as steady:
        mute, half, silent = Client(server.port), Client(server.port), greeted(server.port)
        stalled, slow = greeted(server.port, SMALL), greeted(server.port, SMALL)
        begun = time.monotonic()
        half.send(b"HELLO ad")
        stalled.send(LONG_LOOK)
        slow.send(LONG_LOOK)
        reader = Aside(lambda: read_slowly(slow))
        for client, what, seconds in ((mute, "mute", 1), (half, "half-said", 1), (silent, "silent", 2)):
            client.expect_end()
            check(time.monotonic() - begun < seconds + 3, f"the {what} one stayed")
        reader.done()
        # At the first look that finds it stalled the system may still take some more for it, and then its seconds begin anew.
        time.sleep(max(begun + 9 - time.monotonic(), 0))
        check(is_cut(stalled, LONG_REPLY), "the one that took nothing got all")
        for client in (mute, half, silent, stalled, slow):
            client.close()
    return f"{steady.told()}, over {time.monotonic() - begun:.0f} s"


def read_slowly(client: Client) -> None:
    """Reads the long reply in eight pieces, with half a second between them."""
    piece = len(LONG_REPLY) // 8
    for at in range(7):
        client.expect(LONG_REPLY[at * piece : (at + 1) * piece])
        time.sleep(0.5)
    client.expect(LONG_REPLY[7 * piece :])


def is_cut(client: Client, reply: bytes) -> bool:
    """Whether a client gets a front of a reply, and then the end."""
    try:
        heard = client.read(len(reply))
    except ConnectionResetError:
        return True
    check(reply.startswith(heard), "what was told isn't a front of the reply")
    return len(heard) < len(reply)


def lack_descriptors(place: Place) -> str:
    """100 connections to a server that may have 64 descriptors: some wait, and are served once others have gone."""
    with place.served(limits={resource.RLIMIT_NOFILE: DESCRIPTORS}, loops=2) as server, working(beside(server)) as steady:
        clients = [Client(server.port) for _ in range(100)]
        for client in clients:
            client.send(program.HELLO.encode() + b"\n")
        first = answered(clients, 1)
        check(0 < len(first) < DESCRIPTORS, f"{len(first)} are served by {DESCRIPTORS} descriptors")
        late = [client for client in clients if client not in first]
        while late:
            for client in first:
                client.close()
            first = answered(late, 3)
            check(bool(first), f"{len(late)} aren't served though others have gone")
            late = [client for client in late if client not in first]
        for client in first:
            client.close()
    return f"all 100 were served, some behind others; {steady.told()}"


def are_too_many(place: Place) -> str:
    """The fifth of four connections is closed at once, and another comes in once one has left."""
    with place.served(loops=1, connections=4) as server, working(beside(server)) as steady:
        clients = [greeted(server.port) for _ in range(3)]
        begun = time.monotonic()
        fifth = Client(server.port)
        fifth.expect_end()
        check(time.monotonic() - begun < 3, "the fifth was closed late")
        clients[0].ask(b"BYE", b"OK")
        clients[0].expect_end()
        clients[0].close()
        clients[0] = greeted(server.port)
        for client in [fifth, *clients]:
            client.close()
    return steady.told()


TRIES: List[Callable[[Place], str]] = [
    sends_many_lines_at_once,
    commits_many_lines_at_once,
    sends_and_reads_nothing,
    sends_a_byte_at_a_time,
    stops_in_the_middle_of_a_reply,
    are_put_out,
    lack_descriptors,
    are_too_many,
]


def told(place: Place, name: str, it: Callable[[Place], str]) -> bool:
    """Makes a try, and prints its line. Whether something was wrong."""
    begun, is_wrong = time.monotonic(), False
    try:
        said = it(place)
    except (OSError, Wrong, program.Ended, program.Refused) as fault:
        said, is_wrong = f"WRONG: {fault or type(fault).__name__}", True
    print(f"{name}: {said} ({time.monotonic() - begun:.1f} s)", flush=True)
    return is_wrong


def main() -> int:
    parser = argparse.ArgumentParser(description=__doc__, formatter_class=argparse.RawDescriptionHelpFormatter)
    parser.add_argument("--idle", type=int, default=2_000)
    parser.add_argument("names", nargs="*")
    words = parser.parse_args()
    if not program.can_host():
        print(f"crowd: nothing was tried: {program.path()} isn't there, or has no command host", file=sys.stderr)
        return NOT_HERE
    most = resource.getrlimit(resource.RLIMIT_NOFILE)[1]
    resource.setrlimit(resource.RLIMIT_NOFILE, (most, most))
    tries: Dict[str, Callable[[Place], str]] = {"stand_idle": lambda place: stand_idle(place, words.idle)}
    tries.update((it.__name__, it) for it in TRIES)
    chosen = {name: it for name, it in tries.items() if not words.names or name in words.names}
    with tempfile.TemporaryDirectory(prefix="ifdb-crowd-") as folder:
        place = Place(pathlib.Path(folder))
        wrong = sum(told(place, name, it) for name, it in chosen.items())
    print(f"crowd: {len(chosen)} tries, {wrong} wrong")
    return 1 if wrong else 0


if __name__ == "__main__":
    sys.exit(main())
