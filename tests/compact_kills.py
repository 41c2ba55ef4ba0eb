#!/usr/bin/env python3
"""Whether a database is whole behind a compaction that was killed at a random moment.

    tests/compact_kills.py [--kills N] [--starts N] [--seed S] [--folder DIR]

The variable IFDB names another program than crates/ifdb/out/ifdb.

A database is made whose rows were all changed many times. Its file, and the file that it is compacted to when nobody disturbs that,
are what each round may leave, byte for byte, and nothing else:

- **Kills.** `compact` is started over a copy and gets SIGKILL at a random moment. What an earlier round left under the new file's name
  stays there in every second round. In every tenth one the file is served, and has to show all rows.
- **Starts**, over a file of more than 64 MiB: `host` gets SIGKILL while it compacts it or reads it.

In DIR, a new folder if it isn't named, the last round's files stay. The status is 1 where a file was anything else, 0 where not, and 69
where nothing was tried: the program isn't there, or has no such command.
"""

from __future__ import annotations

import argparse
import pathlib
import random
import shutil
import subprocess
import sys
import tempfile
import time
from typing import List, NamedTuple, Sequence

sys.path.append(str(pathlib.Path(__file__).resolve().parents[1] / "clients/python"))
import program  # noqa: E402

NOT_HERE = 69
ROWS = 2_000


class Otherwise(Exception):
    """A file isn't what it has to be."""


class Database(NamedTuple):
    """A file, what it comes to, and the seconds that its compaction takes."""

    bytes: bytes
    compacted: bytes
    seconds: float


def host(file: pathlib.Path) -> program.Server:
    return program.Server(program.hosting(file, loops=1), quiet=True)


def ask(file: pathlib.Path, requests: Sequence[str]) -> List[str]:
    """Serves a file to one client, and gives the reply to its last request."""
    with host(file) as server, program.connected(server.port) as session:
        session.answer(program.HELLO)
        reply: List[str] = []
        for request in requests:
            reply = session.answer(request)
    return reply


def made(file: pathlib.Path, length: int, changes: int) -> Database:
    """A database of rows with texts of such a length, all of which were changed so many times."""
    requests = ["CREATE TABLE note (id INT, body TEXT, PRIMARY KEY (id))"]
    for first in range(0, ROWS, 100):
        requests.append("INSERT INTO note VALUES " + ", ".join(f"({it}, '')" for it in range(first, first + 100)))
    requests += [f"UPDATE note SET body = '{chr(97 + it % 26) * length}'" for it in range(changes)]
    ask(file, requests)
    before, begun = file.read_bytes(), time.monotonic()
    ran = program.run("compact", "--file", file)
    if ran != (0, b"", b""):
        raise Otherwise(f"a compaction that nobody disturbs ends so: {ran}")
    return Database(before, file.read_bytes(), time.monotonic() - begun)


def shown(file: pathlib.Path) -> None:
    """Whether a file shows the rows, each as it was changed last."""
    counted = ask(file, ["SELECT body, COUNT(*) FROM note GROUP BY body"])
    if len(counted) != 2 or counted[1].split("\t")[1] != str(ROWS):
        raise Otherwise(f"the rows aren't all there as they were changed last: {counted[:3]}")


def killed(rng: random.Random, seconds: float, words: Sequence[program.Word]) -> None:
    """Starts the program, and kills it at a random moment of such a time."""
    process = subprocess.Popen([program.path(), *words], stdout=subprocess.DEVNULL, stderr=subprocess.DEVNULL)
    time.sleep(rng.uniform(0, seconds))
    process.kill()
    process.wait()


def is_compacted(file: pathlib.Path, database: Database) -> bool:
    """Whether a file is the compacted one. It has to be that, or as it was."""
    found = file.read_bytes()
    if found not in (database.bytes, database.compacted):
        raise Otherwise(f"a file of {len(found)} bytes is neither as it was nor compacted")
    return found == database.compacted


def kills(rng: random.Random, folder: pathlib.Path, rounds: int) -> str:
    file, new = folder / "database", folder / "database.new"
    database, done = made(file, 50, 60), 0
    for number in range(rounds):
        file.write_bytes(database.bytes)
        if number % 2:
            new.unlink(missing_ok=True)
        killed(rng, 1.2 * database.seconds, ["compact", "--file", file])
        done += is_compacted(file, database)
        if number % 10 == 0:
            shown(file)
    return f"{rounds} kills of compact: {rounds - done} files as they were, {done} compacted"


def starts(rng: random.Random, folder: pathlib.Path, rounds: int) -> str:
    file = folder / "large"
    database, done = made(file, 500, 75), 0
    for _ in range(rounds):
        file.write_bytes(database.bytes)
        words = [*program.hosting(file), f"--port={program.free_port()}"]
        killed(rng, 2 * database.seconds, words)
        done += is_compacted(file, database)
        shown(file)
        if not is_compacted(file, database):
            raise Otherwise("a start left a file of more than 64 MiB as it was")
    return f"{rounds} kills of starts over {len(database.bytes) >> 20} MiB: {rounds - done} files as they were, {done} compacted"


def main() -> int:
    words = argparse.ArgumentParser(description=__doc__, formatter_class=argparse.RawDescriptionHelpFormatter)
    words.add_argument("--kills", type=int, default=300)
    words.add_argument("--starts", type=int, default=20)
    words.add_argument("--seed", type=int, default=1)
    words.add_argument("--folder", type=pathlib.Path)
    given = words.parse_args()
    if not program.path().is_file() or b"--file" not in program.run("compact").written:
        print(f"compact_kills: nothing was tried: {program.path()} isn't there, or has no command compact", file=sys.stderr)
        return NOT_HERE
    rng = random.Random(given.seed)
    folder = given.folder or pathlib.Path(tempfile.mkdtemp(prefix="ifdb-compact-"))
    try:
        print(kills(rng, folder, given.kills))
        if given.starts:
            print(starts(rng, folder, given.starts))
    except (Otherwise, program.Ended, program.NotServing, program.Refused) as fault:
        print(f"compact_kills: {fault}; the files are in {folder}")
        return 1
    if not given.folder:
        shutil.rmtree(folder)
    return 0


if __name__ == "__main__":
    sys.exit(main())
