#!/usr/bin/env python3
"""Times statements over tables of many rows on the built program, and beside it on SQLite in memory, on processor time.

    bench/statements.py [--rows 10000,1000000] [--runs R]       IFDB names another program than crates/ifdb/out/ifdb

The table is of two INTs. In ifdb its rows have a label of one tag, which the session is at. Both programs read the same statements
from a pipe, and write to a file in memory. What a batch of statements costs is the processor time of the program from before it is
sent until all of it is read and the program sleeps; of R runs the least is told, for each statement or, where the line says so, for
each row. `ending` is what the program does from the end of its input to its own end, with all rows there. Behind a figure over more
rows stands how many times that over the first number of rows it is.

At the end the generator's script runs, and the inserts and counts of it in SQLite; its refusals are of keys that stand already.
Wants sqlite3. 10,000,000 rows take some GB of memory and a few minutes.
"""

from __future__ import annotations

import argparse
import fcntl
import os
import pathlib
import struct
import subprocess
import sys
import tempfile
import termios
import time
import typing

sys.path.append(str(pathlib.Path(__file__).resolve().parents[1] / "clients/python"))
import program  # noqa: E402

IN_MEMORY = "/dev/shm" if os.path.isdir("/dev/shm") else None
# As many rows as one INSERT brings while the table is made.
AT_ONCE = 200
# Rows of a range, and of each first column of the table with a key of two.
RANGE = 100
LOOKS = 50_000
RANGES = 5_000
# Rows that all passes over a table look at together.
PASSED = 20_000_000


class Peer(typing.NamedTuple):
    """A program, and how it is told statements."""

    name: str
    words: list[program.Word]
    # lines before the tables are made, and statements behind that
    opening: str
    labelling: list[str]
    # what stands around each statement, and behind the columns of a table that is to lie in the order of its key
    before: str
    behind: str
    by_key: str

    def text(self, statements: typing.Iterable[str]) -> bytes:
        return "".join(f"{self.before}{it}{self.behind}\n" for it in statements).encode()


IFDB = Peer(
    "ifdb",
    [program.path(), "run"],
    "OPEN\n1 HELLO admin KEY 'admin'\n",
    ["CREATE TAG bench", "SET LABEL (bench)"],
    "1 ",
    "",
    "",
)
SQLITE = Peer("SQLite", ["sqlite3", ":memory:"], "", [], "", ";", " WITHOUT ROWID")


class Batch(typing.NamedTuple):
    """Statements of a kind, and among how many their cost is divided."""

    name: str
    statements: list[str]
    shares: int


class Fed:
    """A program that reads what it is told from a pipe."""

    def __init__(self, peer: Peer, output: typing.IO[bytes]) -> None:
        self.peer = peer
        self.child = subprocess.Popen(peer.words, stdin=subprocess.PIPE, stdout=output)
        assert self.child.stdin
        self.told_to = self.child.stdin
        self.told_to.write(peer.opening.encode())

    def ask(self, statements: typing.Iterable[str]) -> float:
        """Seconds of the program's processor that these take."""
        self.told_to.flush()
        before = self.settled()
        self.told_to.write(self.peer.text(statements))
        self.told_to.flush()
        return self.settled() - before

    def settled(self) -> float:
        """The seconds of its processor when it has read all that it was told, and sleeps."""
        last = -1.0
        while True:
            unread = struct.unpack("i", fcntl.ioctl(self.told_to, termios.FIONREAD, b"\0" * 4))[0]
            now = self.seconds()
            if unread == 0 and now == last and self.state() == "S":
                return now
            last = now
            time.sleep(0.005)

    def seconds(self) -> float:
        return int(self.told("schedstat").split()[0]) / 1e9

    def state(self) -> str:
        return self.told("stat").rpartition(")")[2].split()[0]

    def memory(self) -> int:
        """Bytes of memory that it holds."""
        return int(self.told("statm").split()[1]) * os.sysconf("SC_PAGE_SIZE")

    def told(self, file: str) -> str:
        if self.child.poll() is not None:
            raise SystemExit(f"{self.peer.words[0]} ended with {self.child.returncode}")
        return pathlib.Path(f"/proc/{self.child.pid}/{file}").read_text()

    def end(self) -> float:
        """Ends its input, and gives the seconds of its processor until it has ended."""
        before = self.settled()
        self.told_to.close()
        _, status, used = os.wait4(self.child.pid, 0)
        self.child.returncode = os.waitstatus_to_exitcode(status)
        if self.child.returncode:
            raise SystemExit(f"{self.peer.words[0]} ended with {self.child.returncode}")
        return float(used.ru_utime + used.ru_stime - before)


def inserts(table: str, rows: typing.Iterable[str]) -> typing.Iterator[str]:
    """INSERTs of rows, some at once."""
    some: list[str] = []
    for row in rows:
        some.append(row)
        if len(some) == AT_ONCE:
            yield f"INSERT INTO {table} VALUES {', '.join(some)}"
            some = []
    if some:
        yield f"INSERT INTO {table} VALUES {', '.join(some)}"


def batches(rows: int) -> list[Batch]:
    """What is timed over a table of so many rows with even keys, each key far from the one before."""

    def keys(count: int) -> typing.Iterator[int]:
        return (2 * (it * 7919 % (rows - RANGE)) for it in range(count))

    odd, groups, passes = min(rows // 2, LOOKS), rows // 4 // RANGE, max(PASSED // rows, 3)
    bounds = [f"id > {key} AND id <= {key + 2 * RANGE}" for key in keys(RANGES)]
    return [
        Batch("SELECT by key", [f"SELECT v FROM t WHERE id = {key}" for key in keys(LOOKS)], LOOKS),
        Batch("UPDATE by key", [f"UPDATE t SET v = {key % 1000} WHERE id = {key}" for key in keys(LOOKS)], LOOKS),
        Batch("INSERT between others", [f"INSERT INTO t VALUES ({key + 1}, 1)" for key in keys(odd)], odd),
        Batch("DELETE by key", [f"DELETE FROM t WHERE id = {key + 1}" for key in keys(odd)], odd),
        Batch("BEGIN and ROLLBACK", ["BEGIN", "ROLLBACK"] * LOOKS, LOOKS),
        Batch(f"{RANGE} rows between bounds", [f"SELECT v FROM t WHERE {it}" for it in bounds], RANGES),
        Batch(f"COUNT of {RANGE} rows between", [f"SELECT COUNT(*) FROM t WHERE {it}" for it in bounds], RANGES),
        Batch(f"{RANGE} rows by a part of a key", [f"SELECT v FROM pair WHERE a = {it * 7919 % groups}" for it in range(RANGES)], RANGES),
        Batch("a pass, for each row", ["SELECT COUNT(*) FROM t WHERE v < 500"] * passes, passes * rows),
        Batch("DELETE of all, for each row", ["DELETE FROM t WHERE id >= 0"], rows),
    ]


def once(peer: Peer, rows: int) -> dict[str, float]:
    """What each kind of statement costs over so many rows, in microseconds, and the bytes of a row."""
    with tempfile.TemporaryFile(dir=IN_MEMORY) as output:
        fed, cost = Fed(peer, output), {}
        fed.ask([
            "CREATE TABLE t (id INTEGER, v INTEGER, PRIMARY KEY (id))",
            f"CREATE TABLE pair (a INTEGER, b INTEGER, v INTEGER, PRIMARY KEY (a, b)){peer.by_key}",
            *peer.labelling,
        ])
        empty = fed.memory()
        cost["INSERT of 200 at once, a row"] = fed.ask(inserts("t", (f"({2 * it}, {it % 1000})" for it in range(rows)))) / rows * 1e6
        cost["bytes of a row"] = (fed.memory() - empty) / rows
        fed.ask(inserts("pair", (f"({it // RANGE}, {it % RANGE}, {it})" for it in range(rows // 4))))
        for batch in batches(rows):
            cost[batch.name] = fed.ask(batch.statements) / batch.shares * 1e6
        fed.ask(inserts("t", (f"({2 * it}, {it % 1000})" for it in range(rows))))
        cost["ending, for each row"] = fed.end() / (rows + rows // 4) * 1e6
        output.seek(0)
        refused = next((line for line in output if b" ERR " in line), None)
        if refused:
            raise SystemExit(f"{peer.name}: {refused!r}")
        return cost


def least(peer: Peer, rows: int, runs: int) -> dict[str, float]:
    taken = [once(peer, rows) for _ in range(runs)]
    return {name: min(it[name] for it in taken) for name in taken[0]}


def of_the_generator(count: int) -> typing.Iterator[str]:
    """The inserts and counts of the generator's script, as SQLite reads them."""
    yield "CREATE TABLE item (id INTEGER PRIMARY KEY, qty INTEGER)"
    number = 1
    for place in range(1, count + 1):
        number = (number * 75 + 74) % 65537
        yield f"INSERT OR IGNORE INTO item VALUES ({number % (2 * count)}, {number % 1000})"
        if place % 4 == 0:
            yield "SELECT COUNT(*) FROM item WHERE qty < 500"


def milliseconds(words: list[program.Word], text: bytes, runs: int) -> float:
    """The least processor time of so many runs."""
    return min(program.timed(*words, given=text).processor for _ in range(runs)) * 1000


def main() -> None:
    words = argparse.ArgumentParser(description=__doc__, formatter_class=argparse.RawDescriptionHelpFormatter)
    words.add_argument("--rows", type=lambda text: [int(it) for it in text.split(",")], default=[10_000, 1_000_000])
    words.add_argument("--runs", type=int, default=3)
    given = words.parse_args()
    first: dict[tuple[str, str], float] = {}
    for rows in given.rows:
        told = {peer.name: least(peer, rows, given.runs) for peer in (IFDB, SQLITE)}
        print(f"\n{f'over {rows:,} rows, us':32} {'ifdb':>10} {'':>7} {'SQLite':>10}")
        for name, ours in told["ifdb"].items():
            cells = []
            for peer, cost in ((peer, told[peer][name]) for peer in told):
                before = first.setdefault((peer, name), cost)
                cells.append(f"{cost:10.3f} {f'x {cost / before:.2f}' if rows != given.rows[0] else '':>7}")
            print(f"{name:32} {' '.join(cells)}", flush=True)
    print(f"\n{'the generator, ms':32} {'ifdb':>10} {'':>7} {'SQLite':>10}")
    for count in (1000, 10_000):
        script = program.run("generate", str(count)).written
        ours = milliseconds(IFDB.words, script, given.runs)
        inside = milliseconds([program.path(), "generate", "--run", str(count)], b"", given.runs)
        theirs = milliseconds(SQLITE.words, SQLITE.text(of_the_generator(count)), given.runs)
        print(f"{f'its script of {count:,} INSERTs':32} {ours:10.1f} {'':>7} {theirs:10.1f}")
        print(f"{f'generate --run {count}':32} {inside:10.1f}")


if __name__ == "__main__":
    main()
