#!/usr/bin/env python3
"""Statements a second over many connections, what they cost a server's processors, and what idle connections take.

    bench/crowd.py [--clients 1,4,16,63,256,1000,5000] [--depth 1,16] [--idle N] [--seconds S] [--runs R] [--rows N] [--loops W]
                   [--kind selects | updates] [FOLDER]      IFDB names another program than crates/ifdb/out/ifdb

The clients are connections of bench/crowd.c in four threads, which send so many statements at once as `--depth` says, a SELECT or an
UPDATE of a row by its key each, and then wait for all replies. Of R runs the middle one is told: statements a second, microseconds of
the server's processors for each, and the longest wait for a round of replies. The servers, one behind the other:

- `ifdb host` over a file in FOLDER (/dev/shm), with W loops (as many as there are processors);
- `ifdb serve`, with a worker for each client, up to 63 of them;
- PostgreSQL over a new cluster in FOLDER, with row-level security and prepared statements by pgbench, one at a time, up to 90 clients;
- bench/echo.c, which sends each line back, with as many loops as there are processors.

Then N connections (10,000) stand idle at `ifdb host` beside one that works: the memory that it has for each, in bytes, and the longest
wait of that one. Wants gcc, and `ulimit -n` above the number of connections. The status is 69 where the program has no command `host`.
"""

from __future__ import annotations

import argparse
import os
import pathlib
import resource
import statistics
import subprocess
import sys
import tempfile
import time
from collections.abc import Callable
from typing import List, NamedTuple

HERE = pathlib.Path(__file__).resolve().parent
sys.path.append(str(HERE.parent / "clients/python"))
import host  # noqa: E402
import program  # noqa: E402
import served  # noqa: E402

NOT_HERE = 69
MOST_OF_SERVE, MOST_OF_POSTGRES = 63, 90
SPARE = 100
"""Descriptors beside those of connections."""
STATEMENTS = {
    "selects": f"\\set id random(0, :rows - 1)\nSELECT v FROM {served.TABLE} WHERE id = :id;\n",
    "updates": host.UPDATE,
}


class Run(NamedTuple):
    """What a load came to."""

    rate: float
    statements: int
    refused: int
    longest: float


class Bench(NamedTuple):
    """The words of the command line, and the clients in C."""

    crowd: pathlib.Path
    given: argparse.Namespace

    def load(self, port: int, busy: int, depth: int, key: str, idle: int = 0) -> Run:
        """Statements by so many connections at once, beside some that stand idle. None may be refused."""
        given = self.given
        words = [self.crowd, port, busy, idle, given.seconds, depth, given.rows, served.TABLE, served.TAG, key, given.kind]
        said = subprocess.run([str(word) for word in words], check=True, capture_output=True, text=True).stdout.split()
        run = Run(float(said[0]), int(said[1]), int(said[2]), float(said[3]))
        if run.refused:
            raise SystemExit(f"{run.refused} of {run.statements} statements were refused")
        return run

    def tell(self, what: str, clients: int, depth: int, load: Callable[[], Run], pids: Callable[[], List[int]]) -> None:
        costs, runs = [], []
        for _ in range(self.given.runs):
            before = served.seconds_of(pids())
            runs.append(load())
            costs.append((served.seconds_of(pids()) - before) / max(runs[-1].statements, 1) * 1e6)
        rate, longest = (statistics.median(it) for it in zip(*((run.rate, run.longest) for run in runs)))
        print(f"{what:14} {clients:7} {depth:5} {rate:13,.0f} {statistics.median(costs):8.1f} {longest / 1000:11.1f}", flush=True)


def measure_host(bench: Bench, server: program.Server) -> None:
    for depth in bench.given.depth:
        for clients in bench.given.clients:
            bench.tell("ifdb host", clients, depth, lambda: bench.load(server.port, clients, depth, program.ADMIN_KEY), lambda: [server.pid])


def measure_serve(bench: Bench) -> None:
    most = [clients for clients in bench.given.clients if clients <= MOST_OF_SERVE]
    with program.Server(program.serving(workers=MOST_OF_SERVE + 1)) as server:
        served.make_rows(server.port, bench.given.rows)
        for depth in bench.given.depth:
            for clients in most:
                bench.tell("ifdb serve", clients, depth, lambda: bench.load(server.port, clients, depth, "admin"), lambda: [server.pid])


def measure_echo(bench: Bench, echo: pathlib.Path) -> None:
    with subprocess.Popen([echo, str(os.cpu_count())], stdout=subprocess.PIPE) as server:
        assert server.stdout
        port = int(server.stdout.readline())
        try:
            for depth in bench.given.depth:
                for clients in bench.given.clients:
                    bench.tell("echo by epoll", clients, depth, lambda: bench.load(port, clients, depth, "admin"), lambda: [server.pid])
        finally:
            server.kill()


def measure_postgres(bench: Bench) -> None:
    given = bench.given
    try:
        with host.inside(given.folder) as work, host.cluster(work) as server, tempfile.TemporaryDirectory() as name:
            served.make_rows_of_postgres(server, given.rows)
            script = pathlib.Path(name) / "load.sql"
            script.write_text(STATEMENTS[given.kind])

            def load(clients: int) -> Run:
                said = server.pgbench(script, clients, given.seconds, given.rows, "synchronous_commit=on")
                done = int(served.said_of(said, "actually processed: "))
                return Run(float(served.said_of(said, "tps = ")), done, 0, 0)

            for clients in given.clients:
                if clients <= MOST_OF_POSTGRES:
                    bench.tell("PostgreSQL", clients, 1, lambda: load(clients), served.postgres_pids)
    except (OSError, ValueError, subprocess.CalledProcessError) as fault:
        print(f"PostgreSQL isn't there, or doesn't run in {given.folder}: {fault}", flush=True)


def measure_idle(bench: Bench, server: program.Server) -> None:
    """Both are told of the time in which the idle ones are there."""
    idle, before = bench.given.idle, server.resident()
    words = [bench.crowd, server.port, 1, idle, 1e9, 1, bench.given.rows, served.TABLE, served.TAG, program.ADMIN_KEY, "selects"]
    with subprocess.Popen([str(word) for word in words]) as crowd:
        held = pathlib.Path(f"/proc/{server.pid}/fd")
        while len(list(held.iterdir())) < idle and crowd.poll() is None:
            time.sleep(0.1)
        memory = server.resident() - before
        crowd.kill()
    beside = bench.load(server.port, 1, 1, program.ADMIN_KEY, idle)
    print(f"{idle:,} idle connections: {memory / max(idle, 1):.0f} bytes each, {memory / 1e6:.1f} MB in all;", end=" ")
    print(f"{beside.rate:,.0f} statements a second beside them, the longest in {beside.longest / 1000:.1f} ms", flush=True)


def main() -> int:
    def numbers(text: str) -> List[int]:
        return [int(it) for it in text.split(",")]

    words = argparse.ArgumentParser(description=__doc__, formatter_class=argparse.RawDescriptionHelpFormatter)
    words.add_argument("folder", nargs="?", default="/dev/shm")
    words.add_argument("--clients", type=numbers, default=[1, 4, 16, 63, 256, 1000, 5000])
    words.add_argument("--depth", type=numbers, default=[1, 16])
    words.add_argument("--idle", type=int, default=10_000)
    words.add_argument("--seconds", type=float, default=5)
    words.add_argument("--runs", type=int, default=3)
    words.add_argument("--rows", type=int, default=1000)
    words.add_argument("--loops", type=int)
    words.add_argument("--kind", choices=sorted(STATEMENTS), default="selects")
    given = words.parse_args()
    if not program.can_host():
        print(f"crowd.py: {program.path()} isn't there, or has no command host", file=sys.stderr)
        return NOT_HERE
    most = resource.getrlimit(resource.RLIMIT_NOFILE)[1]
    resource.setrlimit(resource.RLIMIT_NOFILE, (most, most))
    given.clients = [clients for clients in given.clients if clients <= most - SPARE]
    given.idle = min(given.idle, most - SPARE)
    options = {} if given.loops is None else {"loops": given.loops}
    with tempfile.TemporaryDirectory() as name, host.inside(given.folder) as work:
        folder = pathlib.Path(name)
        bench, echo = Bench(served.compiled(folder, "crowd"), given), served.compiled(folder, "echo")
        print(f"{os.cpu_count()} processors, {given.kind}")
        print(f"{'server':14} {'clients':>7} {'depth':>5} {'statements/s':>13} {'us each':>8} {'longest, ms':>11}", flush=True)
        with program.Server(program.hosting(work / "file", connections=most, **options)) as server:
            served.make_rows(server.port, given.rows, program.ADMIN_KEY)
            measure_host(bench, server)
        measure_serve(bench)
        measure_postgres(bench)
        measure_echo(bench, echo)
        with program.Server(program.hosting(work / "file", connections=most, **options)) as server:
            measure_idle(bench, server)
    return 0


if __name__ == "__main__":
    sys.exit(main())
