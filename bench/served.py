#!/usr/bin/env python3
"""Statements a second over loopback, and what they cost a server's processors, by clients in C.

    bench/served.py [--clients 1,4,16,32] [--seconds S] [--runs R] [--rows N]
                    [--postgres PORT] [--user USER] [--database DATABASE]      IFDB names another program than crates/ifdb/out/ifdb

Serves by the built program, and loads it by bench/load.c: each client is a thread
with a raw socket that does, for some seconds, a SELECT of a row by its key and then BEGIN, an UPDATE of such a row, and COMMIT:
four statements, the keys at random. The rows have a label of one tag, which each client raises its own to. Of R runs the one in
the middle is told: statements a second, microseconds of the server's processors for each, and refusals, Conflict and any other.

Beside it the same load goes to bench/echo.c, a server that sends each line back, as the limit of these clients and this machine;
and with --postgres to a running PostgreSQL at that port of 127.0.0.1 by pgbench with prepared statements, with `trust` for USER, a
superuser: a role without rights of its own, row-level security by a tag that the session sets, REPEATABLE READ, which is its
snapshot isolation, and no wait for the disk at COMMIT (synchronous_commit = off), since the served ifdb keeps no file.
"""

from __future__ import annotations

import argparse
import contextlib
import os
import pathlib
import re
import subprocess
import sys
import tempfile
import typing

HERE = pathlib.Path(__file__).resolve().parent
sys.path.append(str(HERE.parent / "clients/python"))
import program  # noqa: E402

TAG, TABLE, ROLE = "served_bench_tag", "served_bench", "served_bench_role"
TICKS = os.sysconf("SC_CLK_TCK")

PGBENCH = f"""\\set id random(0, :rows - 1)
\\set other random(0, :rows - 1)
\\set v random(0, 999)
SELECT v FROM {TABLE} WHERE id = :id;
BEGIN ISOLATION LEVEL REPEATABLE READ;
UPDATE {TABLE} SET v = :v WHERE id = :other;
COMMIT;
"""


class Run(typing.NamedTuple):
    """What a load came to."""

    rate: float
    statements: int
    conflicts: int
    others: int


def compiled(folder: pathlib.Path, name: str) -> pathlib.Path:
    subprocess.run(["gcc", "-O2", "-pthread", "-o", folder / name, HERE / f"{name}.c"], check=True)
    return folder / name


def seconds_of(pids: typing.Iterable[int]) -> float:
    """The processor time of these processes so far, and of their children that have ended."""
    total = 0
    for pid in pids:
        with contextlib.suppress(OSError):
            fields = pathlib.Path(f"/proc/{pid}/stat").read_text().rpartition(")")[2].split()
            total += sum(map(int, fields[11:15]))
    return total / TICKS


def told(name: str, options: argparse.Namespace, load: typing.Callable[[int], Run], pids: typing.Callable[[], list[int]]) -> None:
    for clients in options.clients:
        runs = []
        for _ in range(options.runs):
            before = seconds_of(pids())
            run = load(clients)
            runs.append((run, (seconds_of(pids()) - before) / max(run.statements, 1) * 1e6))
        run, cost = sorted(runs)[len(runs) // 2]
        print(f"{name:10} {clients:7} {run.rate:13,.0f} {cost:10.1f} {run.conflicts:10,} {run.others:7,}", flush=True)


def line_load(client: pathlib.Path, port: int, options: argparse.Namespace) -> typing.Callable[[int], Run]:
    def load(clients: int) -> Run:
        words = [client, port, clients, options.seconds, options.rows, TABLE, TAG, "admin"]
        said = subprocess.run([str(word) for word in words], check=True, capture_output=True, text=True).stdout.split()
        return Run(float(said[0]), *map(int, said[1:]))

    return load


def make_rows(port: int, rows: int, key: str = "admin") -> None:
    """Makes the table of an ifdb at this port, whose admin has this key."""
    with program.connected(port) as session:
        session.answer(f"HELLO admin KEY '{key}'")
        session.answer(f"CREATE TABLE {TABLE} (id INT, v INT, PRIMARY KEY (id))")
        session.answer(f"CREATE TAG {TAG}")
        session.answer(f"SET LABEL ({TAG})")
        for low in range(0, rows, 200):
            session.answer(f"INSERT INTO {TABLE} VALUES " + ", ".join(f"({key}, 0)" for key in range(low, min(low + 200, rows))))


def measure_ifdb(load: pathlib.Path, options: argparse.Namespace) -> None:
    with program.Server(program.serving(workers=max(options.clients) + 8)) as server:
        make_rows(server.port, options.rows)
        told("ifdb", options, line_load(load, server.port, options), lambda: [server.pid])


def measure_echo(load: pathlib.Path, echo: pathlib.Path, options: argparse.Namespace) -> None:
    with subprocess.Popen([echo], stdout=subprocess.PIPE) as server:
        assert server.stdout
        try:
            told("echo in C", options, line_load(load, int(server.stdout.readline()), options), lambda: [server.pid])
        finally:
            server.kill()


def postgres_pids() -> list[int]:
    said = subprocess.run(["pgrep", "-x", "postgres"], capture_output=True, text=True).stdout
    return [int(pid) for pid in said.split()]


def said_of(said: str, word: str) -> str:
    """The number behind a word of what pgbench says, 0 if it doesn't say it."""
    found = re.search(rf"{word}([\d.]+)", said)
    return found[1] if found else "0"


class Postgres(typing.NamedTuple):
    """A running PostgreSQL at a port of 127.0.0.1, with a superuser and a database."""

    port: int
    user: str
    database: str

    def psql(self, *statements: str) -> None:
        words = ["psql", "-q", "-v", "ON_ERROR_STOP=1", "-h", "127.0.0.1", "-p", str(self.port), "-U", self.user]
        for statement in statements:
            words += ["-c", statement]
        subprocess.run([*words, self.database], check=True, stderr=subprocess.DEVNULL)

    def pgbench(self, script: pathlib.Path, clients: int, seconds: float, rows: int, *settings: str) -> str:
        """What pgbench says of a script that some clients do for some seconds, by prepared statements, as the role at its tag."""
        words = ["pgbench", "-n", "-M", "prepared", "-h", "127.0.0.1", "-p", str(self.port), "-U", ROLE, "-f", str(script),
                 "-c", str(clients), "-j", str(clients), "-T", str(max(1, round(seconds))), "-D", f"rows={rows}"]
        chosen = " ".join(f"-c {setting}" for setting in (f"served.tags={TAG}", *settings))
        ran = subprocess.run([*words, self.database], check=True, capture_output=True, text=True, env={**os.environ, "PGOPTIONS": chosen})
        return ran.stdout


def make_rows_of_postgres(server: Postgres, rows: int) -> None:
    """Makes the table, whose rows the role sees at the tag alone."""
    with contextlib.suppress(subprocess.CalledProcessError):
        server.psql(f"CREATE ROLE {ROLE} LOGIN")
    server.psql(
        f"DROP TABLE IF EXISTS {TABLE}",
        f"CREATE TABLE {TABLE} (id INT PRIMARY KEY, v INT, tags TEXT[])",
        f"INSERT INTO {TABLE} SELECT id, 0, ARRAY['{TAG}'] FROM generate_series(0, {rows} - 1) AS id",
        f"ALTER TABLE {TABLE} ENABLE ROW LEVEL SECURITY",
        f"CREATE POLICY flows ON {TABLE} USING (tags <@ string_to_array(current_setting('served.tags', true), ','))",
        f"GRANT SELECT, INSERT, UPDATE, DELETE ON {TABLE} TO {ROLE}",
        f"ANALYZE {TABLE}",
    )


def measure_postgres(folder: pathlib.Path, options: argparse.Namespace) -> None:
    server = Postgres(options.postgres, options.user, options.database)
    make_rows_of_postgres(server, options.rows)
    script = folder / "load.sql"
    script.write_text(PGBENCH)

    def load(clients: int) -> Run:
        said = server.pgbench(script, clients, options.seconds, options.rows, "synchronous_commit=off")
        done, failed = int(said_of(said, "actually processed: ")), int(said_of(said, "failed transactions: "))
        return Run(4 * float(said_of(said, "tps = ")), 4 * done + 3 * failed, failed, 0)

    told("PostgreSQL", options, load, postgres_pids)


def main() -> None:
    parser = argparse.ArgumentParser(description=__doc__, formatter_class=argparse.RawDescriptionHelpFormatter)
    parser.add_argument("--postgres", type=int, metavar="PORT")
    parser.add_argument("--user", default="postgres")
    parser.add_argument("--database", default="postgres")
    parser.add_argument("--seconds", type=float, default=5)
    parser.add_argument("--runs", type=int, default=3)
    parser.add_argument("--clients", type=lambda text: [int(it) for it in text.split(",")], default=[1, 4, 16, 32])
    parser.add_argument("--rows", type=int, default=1000)
    options = parser.parse_args()
    with tempfile.TemporaryDirectory() as name:
        folder = pathlib.Path(name)
        load, echo = compiled(folder, "load"), compiled(folder, "echo")
        print(f"{'server':10} {'clients':>7} {'statements/s':>13} {'us each':>10} {'conflicts':>10} {'other':>7}")
        measure_ifdb(load, options)
        measure_echo(load, echo, options)
        if options.postgres:
            measure_postgres(folder, options)


if __name__ == "__main__":
    main()
