#!/usr/bin/env python3
"""Whether what a kept ifdb acknowledges is there after it was killed: one journal, and a program that is killed over and over.

    tests/crash.py [--kills N] [--seed S] [--folder DIR]     the variable IFDB names another program than crates/ifdb/out/ifdb

Each round starts `ifdb keep --file F`, looks at what is there, and then commits: single rows, and transactions of several rows, as
fast as replies come. At a random moment the program gets SIGKILL. The next round has to find every row whose commit was acknowledged,
of each transaction all rows or none, and none that nobody sent. In DIR, a new folder if it isn't named, the journal stays. The status
is 1 where something was lost, and 0 else.
"""

from __future__ import annotations

import argparse
import pathlib
import random
import sys
import tempfile
import threading
import time
from typing import Dict, List, Optional, Sequence, Set, Tuple

sys.path.append(str(pathlib.Path(__file__).resolve().parents[1] / "clients/python"))
import program  # noqa: E402

Rows = Sequence[Tuple[int, int]]
"""Rows that were found, each with its batch."""


class Log:
    """What was sent, batch by batch, and which batches were acknowledged."""

    def __init__(self) -> None:
        self.sent: Dict[int, List[int]] = {}
        self.acknowledged: Set[int] = set()
        self.unanswered = 0

    def fault(self, rows: Rows) -> Optional[str]:
        """What is wrong with rows that were found: they must be those of batches that were sent, whole, with all that were
        acknowledged."""
        found: Dict[int, List[int]] = {}
        for batch, row in rows:
            found.setdefault(batch, []).append(row)
        for batch, ids in found.items():
            if self.sent.get(batch) != ids:
                return f"batch {batch} has {ids}, and was sent as {self.sent.get(batch)}"
        lost = self.acknowledged - found.keys()
        if lost:
            return f"batches {sorted(lost)} were acknowledged, and are lost"
        self.unanswered += len(found.keys() - self.acknowledged)
        self.acknowledged |= found.keys()
        return None

    def send(self, session: program.Session, size: int) -> None:
        """Commits a batch of some rows. Raises Ended where the program is gone before it was acknowledged."""
        batch, first = len(self.sent), sum(map(len, self.sent.values()))
        self.sent[batch] = list(range(first, first + size))
        lines = [f"1 INSERT INTO entry VALUES ({batch}, {row})" for row in self.sent[batch]]
        for line in ["1 BEGIN", *lines, "1 COMMIT"] if size > 1 else lines:
            session.answer(line)
        self.acknowledged.add(batch)


def begun(session: program.Session, is_first: bool) -> Rows:
    """Opens a session, and makes the table in the first round. What rows there are."""
    session.answer("OPEN")
    session.answer("1 HELLO admin KEY 'admin'")
    if is_first:
        session.answer("1 CREATE TABLE entry (batch INT, id INT, PRIMARY KEY (id))")
    _, *rows = session.answer("1 SELECT batch, id FROM entry ORDER BY id")
    return [(int(batch), int(row)) for _, batch, row in (it.split() for it in rows)]


def main() -> int:
    words = argparse.ArgumentParser(description=__doc__, formatter_class=argparse.RawDescriptionHelpFormatter)
    words.add_argument("--kills", type=int, default=500)
    words.add_argument("--seed", type=int, default=1)
    words.add_argument("--folder", type=pathlib.Path)
    given = words.parse_args()
    rng = random.Random(given.seed)
    folder: pathlib.Path = given.folder or pathlib.Path(tempfile.mkdtemp(prefix="ifdb-crash-"))
    file = folder / "journal"
    log = Log()
    for kills in range(given.kills + 1):
        with program.Piped("keep", "--file", file) as session:
            fault = log.fault(begun(session, kills == 0))
            if fault:
                print(f"after {kills} kills: {fault}")
                return 1
            if kills < given.kills:
                killer = threading.Timer(rng.uniform(0, 0.05), session.process.kill)
                killer.start()
                try:
                    while True:
                        log.send(session, rng.choice([1, 1, 1, 2, 5]))
                except program.Ended:
                    killer.join()
    told = f"{given.kills} kills, {len(log.acknowledged)} commits of {len(log.sent)} sent are there"
    print(f"{told}, {log.unanswered} of them were not answered before the kill, {file.stat().st_size} bytes")
    return 0


if __name__ == "__main__":
    start = time.monotonic()
    status = main()
    print(f"{time.monotonic() - start:.0f} seconds")
    sys.exit(status)
