#!/usr/bin/env python3
"""Whether what a served ifdb acknowledges is kept, and nothing else: clients that all raise one number and each add rows.

    tests/commits.py [--clients 1,4,63] [--transactions N]     the variable IFDB names another program than crates/ifdb/out/ifdb

For each number of clients it starts a server with as many workers, of two connections each. Every client does N transactions over a
connection of its own: it reads the number, adds one, inserts a row, and commits; one that is refused by Conflict is done again. Then
a further connection reads the number and the rows, and the rest say BYE, so that the server ends. The number, the rows and the
summary's commits and refused COMMITs must be what the clients were told. The status is 1 where they aren't, and 0 else.
"""

from __future__ import annotations

import argparse
import pathlib
import sys
import threading
import time
from typing import Dict, List, Optional, Tuple

sys.path.append(str(pathlib.Path(__file__).resolve().parents[1] / "clients/python"))
import program  # noqa: E402

HELLO = "HELLO admin KEY 'admin'"


class Client(threading.Thread):
    """A client: counts its commits and the COMMITs that were refused."""

    def __init__(self, port: int, number: int, transactions: int) -> None:
        super().__init__()
        self.port, self.number, self.transactions = port, number, transactions
        self.commits = self.refused = 0
        self.fault: Optional[str] = None

    def run(self) -> None:
        try:
            with program.connected(self.port) as session:
                session.answer(HELLO)
                while self.commits < self.transactions:
                    self.transact(session)
                session.answer("BYE")
        except (program.Refused, program.Ended, OSError) as fault:
            self.fault = f"{type(fault).__name__} {fault}"

    def transact(self, session: program.Session) -> None:
        session.answer("BEGIN")
        _, value = session.answer("SELECT value FROM total WHERE id = 1")
        session.answer(f"UPDATE total SET value = {int(value) + 1} WHERE id = 1")
        session.answer(f"INSERT INTO entry VALUES ({self.number}, {self.commits})")
        try:
            session.answer("COMMIT")
            self.commits += 1
        except program.Refused as refusal:
            if refusal.name != "Conflict":
                raise
            self.refused += 1


def prepare(port: int) -> None:
    with program.connected(port) as session:
        session.answer(HELLO)
        session.answer("CREATE TABLE total (id INT, value INT, PRIMARY KEY (id))")
        session.answer("CREATE TABLE entry (client INT, number INT, PRIMARY KEY (client, number))")
        session.answer("INSERT INTO total VALUES (1, 0)")
        session.answer("BYE")


def found(port: int) -> Tuple[int, Dict[int, int]]:
    """The number, and how many rows each client has."""
    with program.connected(port) as session:
        session.answer(HELLO)
        _, value = session.answer("SELECT value FROM total WHERE id = 1")
        _, *rows = session.answer("SELECT client, COUNT(*) FROM entry GROUP BY client")
        session.answer("BYE")
    return int(value), {int(client): int(count) for client, count in (row.split("\t") for row in rows)}


def tell(clients: int, transactions: int) -> List[str]:
    """Runs the clients, and returns what is wrong, if anything."""
    with program.Server(program.serving(workers=clients + 1, links=2)) as server:
        prepare(server.port)
        all_clients = [Client(server.port, number, transactions) for number in range(clients)]
        begun = time.monotonic()
        for client in all_clients:
            client.start()
        for client in all_clients:
            client.join()
        took = time.monotonic() - begun
        value, rows = found(server.port)
        for _ in range(2 * (clients + 1) - clients - 2):
            with program.connected(server.port) as session:
                session.answer("BYE")
        summary = server.summary(patience=60)
    commits = sum(client.commits for client in all_clients)
    refused = sum(client.refused for client in all_clients)
    wrong = [client.fault for client in all_clients if client.fault]
    if value != commits:
        wrong.append(f"the number is {value}, and {commits} were acknowledged")
    if rows != {client.number: client.commits for client in all_clients}:
        wrong.append("the rows aren't those of the acknowledged transactions")
    wanted = {"sessions": 2 * (clients + 1), "commits": commits + 1, "refused": refused, "rows": commits + 1, "faults": 0}
    wrong += [f"{name} is {summary[name]}, not {count}" for name, count in wanted.items() if summary[name] != count]
    print(f"{clients:7} {commits:8,} {refused:8,} {took:8.2f} s   {'; '.join(wrong) or 'all adds up'}", flush=True)
    return wrong


def main() -> None:
    parser = argparse.ArgumentParser(description=__doc__, formatter_class=argparse.RawDescriptionHelpFormatter)
    parser.add_argument("--clients", type=lambda text: [int(it) for it in text.split(",")], default=[1, 4, 63])
    parser.add_argument("--transactions", type=int, default=100)
    options = parser.parse_args()
    print(f"{'clients':>7} {'commits':>8} {'refused':>8} {'time':>10}")
    wrong = [tell(clients, options.transactions) for clients in options.clients]
    sys.exit(any(wrong))


if __name__ == "__main__":
    main()
