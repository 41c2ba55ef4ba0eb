#!/usr/bin/env python3
"""Whether a thread of a served ifdb that is stopped between turns holds anybody but its own client.

    tests/stopped.py [--clients 2,4,16] [--statements N]     the variable IFDB names another program than crates/ifdb/out/ifdb

For each number of clients it starts a server with as many workers, and connects that many. Then it stops each thread of the server in
turn by ptrace, while all clients are silent: so the thread waits for its client, and is between turns. Each client then asks for N
INSERTs, each in a turn of its own. All clients but one, the stopped thread's, must be answered within 20 seconds, and that one once
its thread runs again. The status is 1 where some wasn't, and 0 else. Wants the right to trace its own children.
"""

from __future__ import annotations

import argparse
import concurrent.futures
import ctypes
import os
import pathlib
import sys
from typing import Any, List, Optional

sys.path.append(str(pathlib.Path(__file__).resolve().parents[1] / "clients/python"))
import program  # noqa: E402

PTRACE_DETACH, PTRACE_SEIZE, PTRACE_INTERRUPT = 17, 0x4206, 0x4207
ANY_THREAD = 0x40000000  # __WALL of waitpid

LIBC = ctypes.CDLL(None, use_errno=True)
LIBC.ptrace.argtypes = [ctypes.c_long, ctypes.c_long, ctypes.c_void_p, ctypes.c_void_p]


def trace(request: int, thread: int) -> None:
    if LIBC.ptrace(request, thread, None, None) < 0:
        raise OSError(ctypes.get_errno(), f"ptrace {request:#x} of {thread}")


class Stopped:
    """A thread that doesn't run as long as the block lasts."""

    def __init__(self, thread: int) -> None:
        self.thread = thread

    def __enter__(self) -> None:
        trace(PTRACE_SEIZE, self.thread)
        trace(PTRACE_INTERRUPT, self.thread)
        os.waitpid(self.thread, ANY_THREAD)

    def __exit__(self, *_: Optional[Any]) -> None:
        trace(PTRACE_DETACH, self.thread)


def insert(session: program.Session, client: int, round_: int, statements: int) -> None:
    for number in range(statements):
        session.answer(f"INSERT INTO note VALUES ({client}, {round_}, {number})")


def is_held(pool: concurrent.futures.Executor, sessions: List[program.Session], thread: int, round_: int, statements: int) -> bool:
    """Whether some client isn't answered in time beside a stopped thread that should be."""
    held, answered = False, 0
    with Stopped(thread):
        asked = [pool.submit(insert, session, client, round_, statements) for client, session in enumerate(sessions)]
        try:
            for done in concurrent.futures.as_completed(asked, program.PATIENCE):
                done.result()
                answered += 1
                if answered == len(sessions) - 1:
                    break
        except concurrent.futures.TimeoutError:
            held = True
    for done in asked:
        done.result(program.PATIENCE)
    return held


def tell(clients: int, statements: int) -> bool:
    """Stops each thread in turn, and says how often some client wasn't answered that should have been."""
    with program.Server(program.serving(workers=clients)) as server:
        sessions = [program.connected(server.port) for _ in range(clients)]
        for session in sessions:
            session.answer("HELLO admin KEY 'admin'")
        sessions[0].answer("CREATE TABLE note (client INT, round INT, number INT, PRIMARY KEY (client, round, number))")
        threads = sorted(int(it.name) for it in pathlib.Path(f"/proc/{server.pid}/task").iterdir())
        with concurrent.futures.ThreadPoolExecutor(clients) as pool:
            held = sum(is_held(pool, sessions, thread, round_, statements) for round_, thread in enumerate(threads))
        rows = int(sessions[0].answer("SELECT COUNT(*) FROM note")[1])
        for session in sessions:
            session.close()
    lost = rows != clients * len(threads) * statements
    print(f"{clients:7} {len(threads):8} {held:5} {rows:8,}   {'WRONG' if held or lost else 'all others were answered'}", flush=True)
    return held > 0 or lost


def main() -> None:
    parser = argparse.ArgumentParser(description=__doc__, formatter_class=argparse.RawDescriptionHelpFormatter)
    parser.add_argument("--clients", type=lambda text: [int(it) for it in text.split(",")], default=[2, 4, 16])
    parser.add_argument("--statements", type=int, default=200)
    options = parser.parse_args()
    print(f"{'clients':>7} {'threads':>8} {'held':>5} {'rows':>8}")
    wrong = [tell(clients, options.statements) for clients in options.clients]
    sys.exit(any(wrong))


if __name__ == "__main__":
    main()
