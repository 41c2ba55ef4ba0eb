#!/usr/bin/env python3
"""Runs what `ifdb.service` runs, with a listener in systemd's place, and has systemd's own tools look at the unit.

    tests/service.py [--memory]      the variable IFDB names another program than crates/ifdb/out/ifdb

With `--memory` it also fills the memory that a small service may take. The status is 1 where something was otherwise than it should be, and 69 where the program has no command `host`. What wants
systemd-notify or systemd-analyze is left out where these aren't there, and it says so.
"""

from __future__ import annotations

import contextlib
import os
import pathlib
import re
import resource
import shutil
import signal
import socket
import subprocess
import sys
import tempfile
from collections.abc import Callable, Iterator
from typing import Dict, List, Optional

ROOT = pathlib.Path(__file__).resolve().parents[1]
sys.path.append(str(ROOT / "clients/python"))
import program  # noqa: E402

NOT_HERE, OUT_OF_MEMORY, DISK_FAULT, DAMAGED, ENDED = 69, 4, 7, 8, 128 + signal.SIGTERM
EXPOSED = 2.0
"""What systemd-analyze may say at most of how exposed the service is, of 10."""
FULL, ROOM = 5_000, 224 << 20
"""The bytes at which a file's disk is full, and of memory that a small service has."""
UNIT = ROOT / "service/ifdb.service"


class Otherwise(Exception):
    """Something isn't as it should be."""


def expect(what: str, found: object, wanted: object) -> None:
    if found != wanted:
        raise Otherwise(f"{what}: {found!r} in place of {wanted!r}")


class Service:
    """What the unit runs, over a file, until the end of the `with` block."""

    def __init__(self, file: pathlib.Path, listener: Optional[socket.socket] = None, limit: Optional[int] = None, most: int = 0) -> None:
        """`limit` is one of the system's on what a process may take, and `most` how much that is."""
        self.port = program.free_port()
        files = {"IFDB": str(program.path()), "IFDB_FILE": str(file), "IFDB_ADMIN_KEY": str(program.ADMIN_KEY_FILE)}
        words = {**files, "IFDB_PORT": str(self.port), "IFDB_LOOPS": "4"}
        environment: Dict[str, str] = {**os.environ, **words}
        if listener is not None:
            environment["NOTIFY_SOCKET"] = listener.getsockname()
        self.process = subprocess.Popen(
            [ROOT / "service/host.sh"],
            stdout=subprocess.PIPE,
            stderr=subprocess.PIPE,
            text=True,
            env=environment,
            restore_signals=limit is None,  # (Python sets aside the signal that a write past such a limit sends)
            preexec_fn=None if limit is None else lambda: resource.setrlimit(limit or 0, (most, most)),
        )

    def line(self) -> str:
        assert self.process.stdout
        return self.process.stdout.readline()

    def status(self) -> int:
        return self.process.wait(program.PATIENCE)

    def admin(self) -> program.Session:
        session = program.connected(self.port)
        session.answer(program.HELLO)
        return session

    def __enter__(self) -> Service:
        return self

    def __exit__(self, *_: object) -> None:
        self.process.terminate()
        self.process.communicate()


@contextlib.contextmanager
def listening(folder: pathlib.Path) -> Iterator[socket.socket]:
    """A listener in systemd's place."""
    with socket.socket(socket.AF_UNIX, socket.SOCK_DGRAM) as listener:
        listener.bind(str(folder / "notify"))
        listener.settimeout(program.PATIENCE)
        yield listener


def heard(listener: socket.socket) -> bytes:
    """What systemd would hear, without what the teller waits by, which is given back at once."""
    said, files, _, _ = socket.recv_fds(listener, 100, 1)
    for file in files:
        os.close(file)
    return said if said != b"BARRIER=1" else heard(listener)


def it_is_ready_when_it_listens(folder: pathlib.Path) -> None:
    if shutil.which("systemd-notify") is None:
        print("service: systemd-notify isn't there, so nobody was told that it is ready")
        return
    with listening(folder) as listener, Service(folder / "db", listener) as service:
        expect("what systemd hears", heard(listener), b"READY=1")
        with service.admin() as session:
            session.answer("CREATE TABLE note (id INT, body TEXT, PRIMARY KEY (id))")
            session.answer("INSERT INTO note VALUES (1, NULL)")
        service.process.terminate()
        expect("the status of a stop", service.status(), ENDED)
    with Service(folder / "db") as service:
        expect("a line", service.line(), f"LISTENING {service.port}\n")
        with service.admin() as session:
            expect("what was told before the stop", session.answer("SELECT id FROM note")[1:], ["1"])


def other_files_end_it(folder: pathlib.Path) -> None:
    file = folder / "text"
    file.write_text("notes\n")
    with Service(file) as service:
        _, said = service.process.communicate(timeout=program.PATIENCE)
        expect("the status", (service.status(), said), (DAMAGED, "ifdb: the file is no database\n"))
    expect("the file", file.read_text(), "notes\n")


def a_disk_fault_ends_it(folder: pathlib.Path) -> None:
    """The loop that meets it ends the others."""
    told = 0
    with Service(folder / "db", None, resource.RLIMIT_FSIZE, FULL) as service:
        service.line()
        with service.admin() as session, contextlib.suppress(program.Ended):
            session.answer("CREATE TABLE note (id INT, body TEXT, PRIMARY KEY (id))")
            while True:
                session.answer(f"INSERT INTO note VALUES ({told}, NULL)")
                told += 1
        expect("the status", service.status(), DISK_FAULT)
    with Service(folder / "db") as service:
        service.line()
        with service.admin() as session:
            expect("what is there", session.answer("SELECT id FROM note")[1:], [str(it) for it in range(told)])


def want_of_memory_is_told(folder: pathlib.Path) -> None:
    """As the unit's LimitDATA has it: a request that finds no memory is refused, and others go on."""
    rows = 0
    with Service(folder / "db", None, resource.RLIMIT_DATA, ROOM) as service:
        if not service.line():
            print("service: the program can't run in little memory, so want of it wasn't tried")
            return
        with service.admin() as session:
            session.answer("CREATE TABLE note (id INT, body TEXT, PRIMARY KEY (id))")
            with contextlib.suppress(program.Refused):
                while True:
                    many = ", ".join(f"({rows + it}, '{'x' * 1000}')" for it in range(50))
                    session.answer(f"INSERT INTO note VALUES {many}")
                    rows += 50
            expect("what is there", session.answer("SELECT id FROM note WHERE id = 1")[1:], ["1"])
            session.answer("DELETE FROM note WHERE id < 500")
            session.answer("INSERT INTO note VALUES (-1, 'there is room again')")
    with Service(folder / "db") as service:
        service.line()
        with service.admin() as session:
            expect("rows at the next start", session.answer("SELECT COUNT(*) FROM note")[1:], [str(rows - 500 + 1)])


def the_unit_is_well_formed(folder: pathlib.Path) -> None:
    if shutil.which("systemd-analyze") is None:
        print("service: systemd-analyze isn't there, so nobody has looked at the unit")
        return
    unit = folder / UNIT.name
    unit.write_text(UNIT.read_text().replace("/usr/lib/ifdb/host", str(ROOT / "service/host.sh")))
    ran = subprocess.run(["systemd-analyze", "verify", "--man=no", unit], capture_output=True, text=True, check=False)
    expect("what is said of the unit", [it for it in ran.stderr.splitlines() if UNIT.name in it], [])
    words = ["systemd-analyze", "security", "--offline=yes", "--no-pager", str(unit)]
    said = subprocess.run(words, capture_output=True, text=True, check=False, env={**os.environ, "LC_ALL": "C"}).stdout
    exposure = re.search(r"exposure level for \S+: ([\d.]+)", said)
    if exposure is None or float(exposure[1]) > EXPOSED:
        raise Otherwise(f"how exposed the service is: {said[-100:]!r}")
    print(f"service: systemd-analyze says {exposure[1]} of 10 for how exposed it is")


TESTS: List[Callable[[pathlib.Path], None]] = [
    it_is_ready_when_it_listens,
    other_files_end_it,
    a_disk_fault_ends_it,
    the_unit_is_well_formed,
]


def main() -> int:
    if not program.can_host():
        print(f"service: nothing was tried: {program.path()} isn't there, or has no command host", file=sys.stderr)
        return NOT_HERE
    tests = TESTS + [want_of_memory_is_told] * ("--memory" in sys.argv[1:])
    wrong = 0
    for test in tests:
        with tempfile.TemporaryDirectory(prefix="ifdb-service-") as folder:
            try:
                test(pathlib.Path(folder))
            except (Otherwise, OSError, program.Ended, program.Refused, subprocess.TimeoutExpired) as fault:
                wrong += 1
                print(f"service: {test.__name__}: {fault}")
    print(f"service: {len(tests)} tests, {wrong} wrong")
    return 1 if wrong else 0


if __name__ == "__main__":
    sys.exit(main())
