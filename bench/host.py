#!/usr/bin/env python3
"""Commits a second of a served ifdb that keeps them in a file, by clients in C, and how long its start takes.

    bench/host.py [--clients 1,4,16,63] [--seconds S] [--runs R] [--rows N] [--commits 100000,1000000] [FOLDER ..]

The variable IFDB names another program than crates/ifdb/out/ifdb. In each FOLDER (else in this one and in /dev/shm), one behind the other in
the same run:

- UPDATEs of a row by its key, each a commit: by `ifdb host`, whose rows have a label of one tag; by SQLite with journal_mode=WAL and
  synchronous=FULL, over one connection that reads its statements from a pipe; and by PostgreSQL over a new cluster in FOLDER, with
  row-level security and prepared statements, each commit synced. What of the two isn't there is left out.
- SELECTs of a row by its key, of `ifdb host` and of `ifdb serve`.

Of R runs the middle one is told. Then, in /dev/shm, `ifdb host` starts over files of so many commits, each an INSERT; the time is that up to
LISTENING. That file is compacted, too. Wants gcc. The status is 69 where the program isn't there, or has no such command.
"""

from __future__ import annotations

import argparse
import contextlib
import os
import pathlib
import shutil
import statistics
import subprocess
import sys
import tempfile
import time
from collections.abc import Callable, Iterator
from typing import List, Optional

HERE = pathlib.Path(__file__).resolve().parent
sys.path.append(str(HERE.parent / "clients/python"))
import program  # noqa: E402
import served  # noqa: E402

NOT_HERE = 69
STATEMENTS = 2000  # of SQLite's, in each run
SQLITE = "PRAGMA journal_mode=WAL; PRAGMA synchronous=FULL;\nCREATE TABLE served_bench (id INT PRIMARY KEY, v INT);\n"
UPDATE = f"\\set id random(0, :rows - 1)\n\\set v random(0, 999)\nUPDATE {served.TABLE} SET v = :v WHERE id = :id;\n"


class Bench:
    """The words of the command line, and the client in C."""

    def __init__(self, given: argparse.Namespace, load: pathlib.Path) -> None:
        self.clients: List[int] = given.clients
        self.seconds: float = given.seconds
        self.runs: int = given.runs
        self.rows: int = given.rows
        self.load = load

    def rate(self, port: int, kind: str, clients: int, most: Optional[int] = None, key: str = program.ADMIN_KEY) -> float:
        """Statements of a kind in a second, none of them refused, by clients that say the key of admin: for the seconds of the command
        line, or `most` by each client."""
        seconds = self.seconds if most is None else 1e9
        words = [self.load, port, clients, seconds, self.rows, served.TABLE, served.TAG, key, kind, *([] if most is None else [most])]
        said = subprocess.run([str(word) for word in words], check=True, capture_output=True, text=True).stdout.split()
        if said[2:] != ["0", "0"]:
            raise SystemExit(f"{kind}: {said[2]} conflicts and {said[3]} other refusals")
        return float(said[0])

    def tell(self, what: str, clients: int, rate: Callable[[], float]) -> None:
        print(f"{what:44} {clients:7} {statistics.median(rate() for _ in range(self.runs)):12,.0f}", flush=True)


def host(file: pathlib.Path) -> program.Server:
    return program.Server(program.hosting(file))


@contextlib.contextmanager
def inside(folder: str) -> Iterator[pathlib.Path]:
    """A new folder in a folder, until the end of the block."""
    with tempfile.TemporaryDirectory(prefix="ifdb-host-", dir=folder) as name:
        yield pathlib.Path(name).resolve()


def measure(bench: Bench, folder: str, kind: str) -> None:
    """Statements of a kind by `ifdb host` over a file in a folder."""
    for clients in bench.clients:
        with inside(folder) as work, host(work / "file") as server:
            served.make_rows(server.port, bench.rows, program.ADMIN_KEY)
            bench.tell(f"ifdb host, {kind}, {folder}", clients, lambda: bench.rate(server.port, kind, clients))


def measure_serve(bench: Bench) -> None:
    for clients in bench.clients:
        with program.Server(program.serving(workers=clients + 1)) as server:
            served.make_rows(server.port, bench.rows)
            bench.tell("ifdb serve, selects", clients, lambda: bench.rate(server.port, "selects", clients, key="admin"))


def measure_sqlite(bench: Bench, folder: str) -> None:
    if shutil.which("sqlite3") is None:
        print("sqlite3 isn't there")
        return
    rows = ", ".join(f"({key}, 0)" for key in range(bench.rows))
    begin = f"{SQLITE}INSERT INTO {served.TABLE} VALUES {rows};\n"
    updates = "".join(f"UPDATE {served.TABLE} SET v = {it % 1000} WHERE id = {it * 7919 % bench.rows};\n" for it in range(STATEMENTS))

    def rate() -> float:
        with inside(folder) as work:
            program.timed("sqlite3", work / "rows.db", given=begin.encode())
            synced = f"PRAGMA synchronous=FULL;\n{updates}"
            return STATEMENTS / program.timed("sqlite3", work / "rows.db", given=synced.encode()).clock

    bench.tell(f"SQLite, updates, {folder}", 1, rate)


@contextlib.contextmanager
def cluster(folder: pathlib.Path) -> Iterator[served.Postgres]:
    """A new PostgreSQL in a folder, until the end of the block. It doesn't run as root, and so is that of the user postgres then."""
    tools = max(pathlib.Path("/usr/lib/postgresql").glob("*/bin"), key=lambda it: float(it.parent.name))
    alone = ["runuser", "-u", "postgres", "--"] if os.geteuid() == 0 else []
    if alone:
        shutil.chown(folder, "postgres")
    server = served.Postgres(program.free_port(), "postgres", "postgres")
    options = f"-p {server.port} -k {folder} -c listen_addresses=127.0.0.1"
    data = ["-D", str(folder / "data")]

    def run(tool: str, *words: str) -> None:
        subprocess.run([*alone, str(tools / tool), *data, *words], check=True, stdout=subprocess.DEVNULL, cwd=folder)

    run("initdb", "-A", "trust", "-U", server.user)
    run("pg_ctl", "-w", "-l", str(folder / "log"), "-o", options, "start")
    try:
        yield server
    finally:
        run("pg_ctl", "-m", "immediate", "stop")


def measure_postgres(bench: Bench, folder: str) -> None:
    if shutil.which("pgbench") is None or not list(pathlib.Path("/usr/lib/postgresql").glob("*/bin/initdb")):
        print("PostgreSQL isn't there")
        return
    try:
        with inside(folder) as work, cluster(work) as server, tempfile.TemporaryDirectory() as name:
            served.make_rows_of_postgres(server, bench.rows)
            script = pathlib.Path(name) / "update.sql"
            script.write_text(UPDATE)

            def rate(clients: int) -> float:
                said = server.pgbench(script, clients, bench.seconds, bench.rows, "synchronous_commit=on")
                return float(served.said_of(said, "tps = "))

            for clients in bench.clients:
                bench.tell(f"PostgreSQL, updates, {folder}", clients, lambda: rate(clients))
    except (OSError, subprocess.CalledProcessError) as fault:
        print(f"PostgreSQL doesn't run in {folder}: {fault}", flush=True)


def measure_starts(bench: Bench, commits: int) -> None:
    """Starts over a file of so many commits."""
    clients = 16
    with inside("/dev/shm") as work:
        file = work / "file"
        with host(file) as server:
            served.make_rows(server.port, 0, program.ADMIN_KEY)
            bench.rate(server.port, "inserts", clients, most=commits // clients)
        times = []
        for _ in range(bench.runs):
            begun = time.monotonic()
            with host(file):
                times.append(time.monotonic() - begun)
        told = f"{statistics.median(times):.2f} s, over {file.stat().st_size:,} bytes"
        print(f"ifdb host, a start over {commits:,} commits: {told}", flush=True)
        begun = time.monotonic()
        ran = program.run("compact", "--file", file)
        told = f"{time.monotonic() - begun:.2f} s, to {file.stat().st_size:,} bytes"
        print(f"ifdb compact of it: {told}" if ran.status == 0 else f"ifdb compact ended with {ran.status}", flush=True)


def main() -> int:
    words = argparse.ArgumentParser(description=__doc__, formatter_class=argparse.RawDescriptionHelpFormatter)
    words.add_argument("folders", nargs="*", default=[".", "/dev/shm"])
    words.add_argument("--clients", type=lambda text: [int(it) for it in text.split(",")], default=[1, 4, 16, 63])
    words.add_argument("--seconds", type=float, default=5)
    words.add_argument("--runs", type=int, default=3)
    words.add_argument("--rows", type=int, default=1000)
    words.add_argument("--commits", type=lambda text: [int(it) for it in text.split(",")], default=[100_000, 1_000_000])
    given = words.parse_args()
    if not program.can_host():
        print(f"host.py: {program.path()} isn't there, or has no command host", file=sys.stderr)
        return NOT_HERE
    with tempfile.TemporaryDirectory() as name:
        bench = Bench(given, served.compiled(pathlib.Path(name), "load"))
        print(f"{os.cpu_count()} processors\n{'what':44} {'clients':>7} {'a second':>12}", flush=True)
        for folder in given.folders:
            measure(bench, folder, "updates")
            measure_sqlite(bench, folder)
            measure_postgres(bench, folder)
            measure(bench, folder, "selects")
        measure_serve(bench)
        for commits in given.commits:
            measure_starts(bench, commits)
    return 0


if __name__ == "__main__":
    sys.exit(main())
