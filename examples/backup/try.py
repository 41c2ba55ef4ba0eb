#!/usr/bin/env python3
"""Backups and a standby, tried under load.

    examples/backup/try.py [--clients N] [--seconds S] [--every S]      the variable IFDB names another program than crates/ifdb/out/ifdb

N clients (4) commit rows over `ifdb host` for S seconds (3), while backup.sh copies the file again and again and follow.py follows it,
looking each so many seconds (0.2). Then the machine is lost: the server and who follows get SIGKILL. `ifdb host` over each copy has to
show of each client's commits the first ones and no others, each whole: in a backup all that was acknowledged before it began at least.
Says how many commits the standby has lost. The status is 1 where a copy shows anything else, and 69 where the program isn't there, or has
no command host.
"""

from __future__ import annotations

import argparse
import os
import pathlib
import subprocess
import sys
import tempfile
import threading
import time
from typing import Dict, List, NamedTuple

HERE = pathlib.Path(__file__).resolve().parent
sys.path.append(str(HERE.parents[1] / "clients/python"))
import program  # noqa: E402

NOT_HERE = 69


class Otherwise(Exception):
    """A copy shows what it must not."""


def host(file: pathlib.Path) -> program.Server:
    return program.Server(program.hosting(file), quiet=True)


class Client(threading.Thread):
    """Commits rows until the server is gone: with each number a transaction of two."""

    def __init__(self, port: int, client: int) -> None:
        super().__init__()
        self.sent = self.acknowledged = 0
        self._port = port
        self._client = client

    def run(self) -> None:
        try:
            with program.connected(self._port) as session:
                session.answer(program.HELLO)
                while True:
                    self.sent += 1
                    session.answer("BEGIN")
                    session.answer(f"INSERT INTO entry VALUES ({self._client}, {self.sent})")
                    session.answer(f"INSERT INTO entry VALUES ({self._client}, {-self.sent})")
                    session.answer("COMMIT")
                    self.acknowledged = self.sent
        except (program.Ended, OSError):
            pass  # (of the loss)


def commits_in(file: pathlib.Path, clients: int) -> List[int]:
    """How many of each client's commits a database shows, which have to be the first ones."""
    with host(file) as server, program.connected(server.port) as session:
        session.answer(program.HELLO)
        rows = session.answer("SELECT client, number FROM entry")[1:]
    numbers: Dict[int, List[int]] = {client: [] for client in range(clients)}
    for row in rows:
        writer, _, number = row.partition("\t")
        numbers[int(writer)].append(int(number))
    for client, found in numbers.items():
        count = len(found) // 2
        if sorted(found) != [it for it in range(-count, count + 1) if it]:
            raise Otherwise(f"{file.name} shows of client {client}: {sorted(found)[:5]} .. {sorted(found)[-5:]}")
    return [len(found) // 2 for found in numbers.values()]


class Backup(NamedTuple):
    """A copy, and what was acknowledged to each client before it was begun."""

    file: pathlib.Path
    least: List[int]


def backed_up(file: pathlib.Path, folder: pathlib.Path, clients: List[Client]) -> Backup:
    least = [client.acknowledged for client in clients]
    words = [str(HERE / "backup.sh"), str(file), str(folder)]
    ran = subprocess.run(words, capture_output=True, text=True, check=False, env={**os.environ, "IFDB": str(program.path())})
    if ran.returncode != 0:
        raise Otherwise(f"a backup failed: {ran.stderr}")
    return Backup(pathlib.Path(ran.stdout.partition(": ")[0]), least)


def check(what: str, file: pathlib.Path, clients: List[Client], least: List[int]) -> List[int]:
    found = commits_in(file, len(clients))
    for client, count, floor in zip(clients, found, least):
        if not floor <= count <= client.sent:
            raise Otherwise(f"{what} shows {count} commits of a client, of whose {client.sent} it had to have {floor}")
    return found


def try_all(work: pathlib.Path, given: argparse.Namespace) -> None:
    file, standby = work / "db", work / "standby"
    backups: List[Backup] = []
    with host(file) as server:
        with program.connected(server.port) as session:
            session.answer(program.HELLO)
            session.answer("CREATE TABLE entry (client INT, number INT, PRIMARY KEY (client, number))")
        follow = [sys.executable, str(HERE / "follow.py"), str(file), str(standby), "--every", str(given.every)]
        subprocess.run([*follow, "--once"], check=True)
        clients = [Client(server.port, it) for it in range(given.clients)]
        with subprocess.Popen(follow) as follower:
            for client in clients:
                client.start()
            end = time.monotonic() + given.seconds
            while time.monotonic() < end or not backups:
                backups.append(backed_up(file, work / f"backups{len(backups)}", clients))
            was_following = follower.poll() is None
            follower.kill()
            server.stop()
    for client in clients:
        client.join()
    if not was_following:
        raise Otherwise("who followed had ended")
    for backup in backups:
        check(f"backup {backup.file.name}", backup.file, clients, backup.least)
    told = [client.acknowledged for client in clients]
    check("the lost file", file, clients, told)
    lost = sum(told) - sum(check("the standby", standby, clients, [0] * len(clients)))
    print(f"backup: {len(backups)} backups under load are whole; the standby lost the last {max(lost, 0)} of {sum(told)} commits, looking each {given.every} s")


def main() -> int:
    words = argparse.ArgumentParser(description=__doc__, formatter_class=argparse.RawDescriptionHelpFormatter)
    words.add_argument("--clients", type=int, default=4)
    words.add_argument("--seconds", type=float, default=3)
    words.add_argument("--every", type=float, default=0.2)
    given = words.parse_args()
    if not program.can_host():
        print(f"backup: nothing was tried: {program.path()} isn't there, or has no command host", file=sys.stderr)
        return NOT_HERE
    with tempfile.TemporaryDirectory(prefix="ifdb-backup-") as folder:
        try:
            try_all(pathlib.Path(folder), given)
        except Otherwise as fault:
            print(f"backup: FAILED: {fault}")
            return 1
    return 0


if __name__ == "__main__":
    sys.exit(main())
