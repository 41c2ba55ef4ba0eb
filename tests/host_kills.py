#!/usr/bin/env python3
"""Whether what `ifdb host` acknowledges is there after it was killed, and what it makes of a file that is cut or changed.

    tests/host_kills.py [--kills N] [--clients 1,4,63] [--life SECONDS] [--every N] [--full] [--seed S] [--folder DIR]

The variable IFDB names another program than crates/ifdb/out/ifdb.

Three parts, each over a file of its own in DIR, a new folder if it isn't named:

- **Kills.** Each round starts the program over the same file and looks at what is there. Then clients, as many as the list says by
  turns, insert numbered rows, every other one at a secret label, and move amounts between accounts in transactions, and one more client
  looks at what they do, until the program gets SIGKILL at a random moment, SECONDS after their start at most; at times that is while it
  starts. The next round has to find every row that was acknowledged to anybody or told to who looked, of
  what was sent and not answered at most the last of each client, nothing else, and on each account what the moves that are there leave.
- **Damage.** A small file is cut at each byte, and each byte of it is changed, or each Nth one. The program has to refuse it with status
  8 and leave it as it is, or to show what was there after one of its steps: all of those before the damage at least.
- **Full disks**, where `--full` stands, for root alone. A tmpfs of 64 KiB is filled by four clients, and one more looks: the program
  ends all their connections, and itself with status 7. A start over the full disk has to tell all that was acknowledged or told, and
  nothing that wasn't sent, and once there is room again the database goes on.

The status is 1 where something was lost, 0 where not, and 69 where nothing was tried: the program isn't there, or has no such command.
"""

from __future__ import annotations

import argparse
import pathlib
import random
import signal
import subprocess
import sys
import tempfile
import threading
import time
from typing import Counter, Dict, List, NamedTuple, Optional, Sequence, Set, Tuple, Union

sys.path.append(str(pathlib.Path(__file__).resolve().parents[1] / "clients/python"))
import program  # noqa: E402

NOT_HERE = 69
DISK_FAULT, DAMAGED = 7, 8
ACCOUNTS, AMOUNT = 10, 1000
KILLED_EARLY = 0.15
"""In what part of the rounds the program is killed while it starts."""


class Lost(Exception):
    """What is there isn't what has to be."""


def host(file: pathlib.Path, quiet: bool = False, **options: int) -> program.Server:
    return program.Server(program.hosting(file, **options), quiet=quiet)


def told(session: program.Session, request: str) -> List[List[str]]:
    """The rows of a SELECT."""
    return [row.split("\t") for row in session.answer(request)[1:]]


# ---- Kills


class Entry(NamedTuple):
    """A row that a client inserts."""

    client: int
    number: int

    @property
    def label(self) -> str:
        """The label at which it stands: every other client writes secrets."""
        return "{secret}" if self.client % 2 else "{}"


class Move(NamedTuple):
    """An amount that a client moves from an account to another."""

    client: int
    number: int
    source: int
    target: int
    amount: int


Work = Union[Entry, Move]


class Client(threading.Thread):
    """A client of one round: what was acknowledged to it, and what it had sent last without an answer."""

    def __init__(self, port: int, client: int, numbers: Counter[int], seed: int) -> None:
        super().__init__()
        self.done: List[Work] = []
        self.unanswered: Optional[Work] = None
        self.fault: Optional[str] = None
        self._port = port
        self._client = client
        self._numbers = numbers
        self._rng = random.Random(seed)

    def run(self) -> None:
        try:
            with program.connected(self._port) as session:
                session.answer(program.HELLO)
                self._work(session)
        except (program.Ended, OSError):
            pass  # (of the kill)
        except program.Refused as refusal:
            self.fault = str(refusal)

    def _work(self, session: program.Session) -> None:
        if self._client % 2:
            session.answer("SET LABEL (secret)")
        while True:
            if self._client % 2 or self._rng.random() < 0.5:
                self._insert(session)
            else:
                self._move(session)

    def _number(self) -> int:
        """A number that the client has given to nothing yet. Each client counts for itself."""
        self._numbers[self._client] += 1
        return self._numbers[self._client]

    def _insert(self, session: program.Session) -> None:
        entry = Entry(self._client, self._number())
        self._send(session, f"INSERT INTO entry VALUES ({entry.client}, {entry.number})", entry)

    def _move(self, session: program.Session) -> None:
        source, target = self._rng.sample(range(ACCOUNTS), 2)
        move = Move(self._client, self._number(), source, target, self._rng.randint(1, 9))
        session.answer("BEGIN")
        session.answer(f"UPDATE account SET amount = amount - {move.amount} WHERE id = {source}")
        session.answer(f"UPDATE account SET amount = amount + {move.amount} WHERE id = {target}")
        session.answer(f"INSERT INTO move VALUES ({', '.join(map(str, move))})")
        try:
            self._send(session, "COMMIT", move)
        except program.Refused as refusal:
            if refusal.name != "Conflict":
                raise
            self.unanswered = None

    def _send(self, session: program.Session, request: str, work: Work) -> None:
        """Sends what commits some work."""
        self.unanswered = work
        session.answer(request)
        self.unanswered = None
        self.done.append(work)


class Reader(Client):
    """A client that only looks: whatever it is told has to be there behind the kill, also what nobody else was told yet."""

    def _work(self, session: program.Session) -> None:
        session.answer("SET LABEL (secret)")
        begun = dict(self._numbers)
        while True:
            client = self._rng.choice(list(self._numbers) or [0])
            newer = f"WHERE client = {client} AND number > {begun.get(client, 0)}"
            self.done += [Entry(*map(int, row)) for row in told(session, f"SELECT client, number FROM entry {newer}")]
            moves = told(session, f"SELECT client, number, source, target, amount FROM move {newer}")
            self.done += [Move(*map(int, row)) for row in moves]


class Ledger:
    """What has to be there, over all rounds."""

    def __init__(self) -> None:
        self.there: Set[Work] = set()
        self.sent_last: Set[Work] = set()
        """What was sent and not answered in the last round."""
        self.numbers: Counter[int] = Counter()
        self.looked = 0
        """How many rows were told to who looked."""
        self.kept_unanswered = 0

    def note(self, clients: Sequence[Client]) -> None:
        """Takes in what the clients of a round were told."""
        for client in clients:
            if client.fault:
                raise Lost(client.fault)
            self.there.update(client.done)
            self.looked += len(client.done) if isinstance(client, Reader) else 0
            if client.unanswered:
                self.sent_last.add(client.unanswered)

    def check(self, session: program.Session) -> None:
        """Looks at what is there, from a session at the label of all secrets."""
        rows = told(session, "SELECT client, number, LABEL OF entry FROM entry")
        labels = {Entry(int(client), int(number)): label for client, number, label in rows}
        moves = [Move(*map(int, row)) for row in told(session, "SELECT client, number, source, target, amount FROM move")]
        found: Set[Work] = {*labels, *moves}
        if len(found) != len(rows) + len(moves):
            raise Lost("a row is there twice")
        if self.there - found:
            raise Lost(f"acknowledged, and not there: {sorted(self.there - found)[:5]}")
        if found - self.there - self.sent_last:
            raise Lost(f"there, and not sent, or known to be lost: {sorted(found - self.there - self.sent_last)[:5]}")
        wrong = [(entry, label) for entry, label in labels.items() if label != entry.label]
        if wrong:
            raise Lost(f"at another label: {wrong[:5]}")
        self._check_accounts(moves, {int(it): int(amount) for it, amount in told(session, "SELECT id, amount FROM account")})
        self.kept_unanswered += len(found - self.there)
        self.there, self.sent_last = found, set()

    @staticmethod
    def _check_accounts(moves: Sequence[Move], accounts: Dict[int, int]) -> None:
        left = dict.fromkeys(range(ACCOUNTS), AMOUNT)
        for move in moves:
            left[move.source] -= move.amount
            left[move.target] += move.amount
        if accounts != left:
            raise Lost(f"the accounts have {accounts}, and the moves leave {left}")


SETTING = [
    "CREATE TAG secret",
    "CREATE TABLE entry (client INT, number INT, PRIMARY KEY (client, number))",
    "CREATE TABLE move (client INT, number INT, source INT, target INT, amount INT, PRIMARY KEY (client, number))",
    "CREATE TABLE account (id INT, amount INT, PRIMARY KEY (id))",
    f"INSERT INTO account VALUES {', '.join(f'({it}, {AMOUNT})' for it in range(ACCOUNTS))}",
]


def killed_early(file: pathlib.Path, rng: random.Random) -> None:
    """Kills the program while it starts, or soon behind that."""
    words = [*program.hosting(file), f"--port={program.free_port()}"]
    with subprocess.Popen([program.path(), *words], stdout=subprocess.DEVNULL) as process:
        time.sleep(rng.uniform(0, 0.05))
        process.kill()


def crowd(port: int, size: int, ledger: Ledger, rng: random.Random) -> List[Client]:
    """So many clients, and one who looks."""
    kinds = [Client] * size + [Reader]
    return [kind(port, client, ledger.numbers, rng.randrange(2**32)) for client, kind in enumerate(kinds)]


def try_kills(file: pathlib.Path, kills: int, sizes: Sequence[int], life: float, rng: random.Random) -> str:
    """Kills the program so many times. What is to be told of it."""
    ledger = Ledger()
    slowest = 0.0
    for round in range(kills + 1):
        begun = time.monotonic()
        with host(file) as server:
            slowest = max(slowest, time.monotonic() - begun)
            with program.connected(server.port) as session:
                session.answer(program.HELLO)
                for request in SETTING if round == 0 else []:
                    session.answer(request)
                session.answer("SET LABEL (secret)")
                ledger.check(session)
            if round == kills:
                break
            clients = crowd(server.port, sizes[round % len(sizes)], ledger, rng)
            for client in clients:
                client.start()
            time.sleep(rng.uniform(0, life))
            server.stop()
            for client in clients:
                client.join()
        ledger.note(clients)
        if rng.random() < KILLED_EARLY:
            killed_early(file, rng)
    sent = sum(ledger.numbers.values())
    return (
        f"{kills} kills: {len(ledger.there):,} commits of {sent:,} tried are there, {ledger.kept_unanswered} of them unanswered before the"
        f" kill; {ledger.looked:,} rows were told to who looked; {file.stat().st_size:,} bytes, and {slowest:.2f} s for the slowest start"
    )


# ---- Damage

State = Tuple[Tuple[str, ...], ...]
"""What is told to some requests that tell what is there."""

SHOWN = ["SET LABEL (secret)", "SELECT id, body, LABEL OF entry FROM entry", "SELECT id FROM other"]
STEPS = [
    ["CREATE TAG secret"],
    ["CREATE TABLE entry (id INT, body TEXT, PRIMARY KEY (id))"],
    ["INSERT INTO entry VALUES (1, 'one')"],
    ["BEGIN", "INSERT INTO entry VALUES (2, 'two'), (3, NULL)", "UPDATE entry SET body = 'first' WHERE id = 1", "COMMIT"],
    ["SET LABEL (secret)", "INSERT INTO entry VALUES (4, 'hidden')", "SET LABEL ()"],
    ["DELETE FROM entry WHERE id = 2"],
    ["CREATE TABLE other (id INT, PRIMARY KEY (id))"],
    ["INSERT INTO other VALUES (7)"],
]


def state_at(port: int) -> State:
    with program.connected(port) as session:
        session.answer(program.HELLO)
        state = tuple(tuple(session.ask(request)) for request in SHOWN)
        session.answer("BYE")
    return state


class Front(NamedTuple):
    """What is there after some steps, and how long the file is then."""

    state: State
    size: int


def small(file: pathlib.Path) -> List[Front]:
    """Makes a small file, and returns what was there before the steps and after each."""
    fronts = []
    steps: List[List[str]] = [[], *STEPS]
    with host(file) as server, program.connected(server.port) as session:
        session.answer(program.HELLO)
        for step in steps:
            for request in step:
                session.answer(request)
            fronts.append(Front(state_at(server.port), file.stat().st_size))
    return fronts


def shown(file: pathlib.Path) -> Optional[State]:
    """What the program shows of a file, or None where it refuses it, as it has to: with status 8, and leaving it as it is."""
    before = file.read_bytes()
    try:
        with host(file, quiet=True, loops=1) as server:
            state = state_at(server.port)
            ended = server.terminated()
            if ended != (-signal.SIGTERM, ""):
                raise Lost(f"it ended with this status and output: {ended}")
            return state
    except program.NotServing as refusal:
        if refusal.status != DAMAGED:
            raise Lost(str(refusal)) from refusal
        if file.read_bytes() != before:
            raise Lost("a file that was refused was changed") from refusal
        return None


def try_damage(folder: pathlib.Path, every: int, rng: random.Random) -> str:
    """Cuts and changes a small file at every so many bytes. What is to be told of it."""
    file, copy = folder / "small", folder / "damaged"
    fronts = small(file)
    whole = file.read_bytes()
    came: Counter[str] = Counter()
    cuts = [(f"cut at byte {at}", whole[:at], at) for at in range(len(whole) + 1)]
    changes = []
    for at, byte in enumerate(whole):
        other = (byte + rng.randrange(1, 256)) % 256
        changes.append((f"byte {at} is {other} in place of {byte}", whole[:at] + bytes([other]) + whole[at + 1 :], at))
    for what, damaged, at in cuts[::every] + changes[::every]:
        copy.write_bytes(damaged)
        state = shown(copy)
        # The last byte of a front may be written again by the step behind it.
        least = max((steps for steps, front in enumerate(fronts) if front.size <= at), default=0)
        if state is None:
            came["refused"] += 1
        elif state in [front.state for front in fronts[least:]]:
            came["read to a step before"] += 1
        else:
            raise Lost(f"{what} of {len(whole)}: it shows {state}, which was not there after {least} steps or later")
    if shown(file) != fronts[-1].state:
        raise Lost("the whole file doesn't show the last step")
    tried = f"{len(cuts[::every])} cuts and {len(changes[::every])} changed bytes of {len(whole)}"
    return f"{tried}: {', '.join(f'{count} {how}' for how, count in sorted(came.items()))}"


# ---- Full disks


def try_full(folder: pathlib.Path, rng: random.Random) -> str:
    """Fills a small disk. What is to be told of it."""
    folder.mkdir()
    mounted = ["mount", "-t", "tmpfs", "-o", "size=64k", "ifdb-host-kills", str(folder)]
    subprocess.run(mounted, check=True)
    try:
        return fill(folder, rng)
    finally:
        subprocess.run(["umount", str(folder)], check=True)


def fill(folder: pathlib.Path, rng: random.Random) -> str:
    file, ledger = folder / "log", Ledger()
    with host(file) as server:
        with program.connected(server.port) as session:
            session.answer(program.HELLO)
            for request in SETTING:
                session.answer(request)
            session.answer("BYE")
        clients = crowd(server.port, 4, ledger, rng)
        for client in clients:
            client.start()
        for client in clients:
            client.join()
        ledger.note(clients)
        if server.status() != DISK_FAULT:
            raise Lost(f"it ended with status {server.status()}")
    size = file.stat().st_size
    for room in ("64k", "1m"):
        subprocess.run(["mount", "-o", f"remount,size={room}", str(folder)], check=True)
        with host(file) as server, program.connected(server.port) as session:
            session.answer(program.HELLO)
            session.answer("SET LABEL (secret)")
            ledger.check(session)
            if room == "1m":
                session.answer("INSERT INTO entry VALUES (1000, 1)")
    return f"a disk that was full at {size:,} bytes: {len(ledger.there):,} commits are there, {ledger.kept_unanswered} of them unanswered"


def main() -> int:
    words = argparse.ArgumentParser(description=__doc__, formatter_class=argparse.RawDescriptionHelpFormatter)
    words.add_argument("--kills", type=int, default=300)
    words.add_argument("--clients", type=lambda text: [int(it) for it in text.split(",")], default=[1, 4, 63])
    words.add_argument("--life", type=float, default=0.5)
    words.add_argument("--every", type=int, default=1)
    words.add_argument("--full", action="store_true")
    words.add_argument("--seed", type=int, default=1)
    words.add_argument("--folder", type=pathlib.Path)
    given = words.parse_args()
    if not program.can_host():
        print(f"host_kills: nothing was tried: {program.path()} isn't there, or has no command host", file=sys.stderr)
        return NOT_HERE
    rng = random.Random(given.seed)
    folder: pathlib.Path = given.folder or pathlib.Path(tempfile.mkdtemp(prefix="ifdb-host-"))
    try:
        if given.full:
            print(try_full(folder / "full", rng), flush=True)
        print(try_damage(folder, given.every, rng), flush=True)
        print(try_kills(folder / "kills", given.kills, given.clients, given.life, rng), flush=True)
    except Lost as lost:
        print(f"LOST: {lost} (seed {given.seed}, {folder})")
        return 1
    return 0


if __name__ == "__main__":
    start = time.monotonic()
    status = main()
    print(f"{time.monotonic() - start:.0f} seconds")
    sys.exit(status)
