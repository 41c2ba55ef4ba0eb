#!/usr/bin/env python3
"""Serves databases in files by the built program, and looks at what is in the files behind it: the tests of `ifdb host` that take
seconds. Prints how many were as they should be.

    tests/hosted.py      the variable IFDB names another program than crates/ifdb/out/ifdb

The status is 1 where something was otherwise, and 69 where the program has no such command.
"""

from __future__ import annotations

import pathlib
import resource
import signal
import subprocess
import sys
import tempfile
from collections.abc import Callable
from typing import List, Tuple

ROOT = pathlib.Path(__file__).resolve().parents[1]
sys.path.append(str(ROOT / "clients/python"))
import program  # noqa: E402

NOT_HERE, DISK_FAULT, DAMAGED = 69, 7, 8
FULL = 5_000
"""The bytes at which a file's disk is full."""


class Otherwise(Exception):
    """Something isn't as it should be."""


def expect(what: str, found: object, wanted: object) -> None:
    if found != wanted:
        raise Otherwise(f"{what}: {found!r} in place of {wanted!r}")


def host(file: pathlib.Path) -> program.Server:
    return program.Server(program.hosting(file), quiet=True)


def admin(port: int) -> program.Session:
    """A session of admin's."""
    session = program.connected(port)
    session.answer(program.HELLO)
    return session


def made(file: pathlib.Path, *requests: str) -> None:
    """A database on which some requests were made, behind that of a table. The server is killed then."""
    with host(file) as server, admin(server.port) as session:
        for request in ["CREATE TABLE note (id INT, body TEXT, PRIMARY KEY (id))", *requests]:
            session.answer(request)


def ids(file: pathlib.Path) -> List[str]:
    """The keys of the notes that a start over a file finds."""
    with host(file) as server, admin(server.port) as session:
        return session.answer("SELECT id FROM note")[1:]


def refused(file: pathlib.Path) -> Tuple[int, str]:
    """The status of a start over a file that isn't served, and what it says on standard error; the file has to stay as it was."""
    before = file.read_bytes() if file.exists() else None
    ran = program.run(*program.hosting(file), f"--port={program.free_port()}")
    expect("what a refused start writes", ran.written, b"")
    expect("a refused file", file.read_bytes() if file.exists() else None, before)
    return ran.status, ran.said.decode()


def is_ended(session: program.Session, request: str) -> bool:
    """Whether a connection is closed in the place of a reply, with no byte of it."""
    try:
        return session.ask(request) == []
    except program.Ended:
        return True


def what_was_told_is_kept(folder: pathlib.Path) -> None:
    file = folder / "kept"
    made(file, "INSERT INTO note VALUES (1, 'one'), (2, 'two')", "DELETE FROM note WHERE id = 1", "BEGIN", "INSERT INTO note VALUES (3, NULL)")
    expect("the file's mode", oct(file.stat().st_mode & 0o777), "0o600")
    expect("behind a kill within a transaction", ids(file), ["2"])
    with host(file) as server, admin(server.port) as session:
        expect("a key that is there", session.ask("INSERT INTO note VALUES (2, 'again')"), ["ERR 13 DuplicateKey"])
        session.answer("UPDATE note SET body = 'second' WHERE id = 2")
    with host(file) as server, admin(server.port) as session:
        expect("behind a second kill", session.answer("SELECT id, body FROM note"), ["ROWS 1 2", "2\tsecond"])
        session.answer("UPDATE note SET body = 'third' WHERE id = 2")
        expect("a stop", server.terminated(), (-signal.SIGTERM, ""))
    with host(file) as server, admin(server.port) as session:
        expect("behind a stop", session.answer("SELECT id, body FROM note"), ["ROWS 1 2", "2\tthird"])


def nothing_is_kept_of_what_only_looks(folder: pathlib.Path) -> None:
    file = folder / "looks"
    made(file, "CREATE TAG secret", "INSERT INTO note VALUES (1, 'one')")
    before = file.read_bytes()
    with host(file) as server, admin(server.port) as session:
        for request in ("SET LABEL (secret)", "SELECT id FROM note", "SET LABEL ()", "BEGIN", "INSERT INTO note VALUES (2, '')", "ROLLBACK"):
            session.answer(request)
        expect("a refusal", session.ask("INSERT INTO note VALUES (1, '')"), ["ERR 13 DuplicateKey"])
        session.answer("BYE")
    expect("the file", file.read_bytes(), before)


def one_program_has_a_file(folder: pathlib.Path) -> None:
    file = folder / "one"
    made(file)
    with host(file) as server, admin(server.port) as session:
        session.answer("INSERT INTO note VALUES (1, 'one')")
        expect("a second start", refused(file)[0], DISK_FAULT)
        expect("a script over a served file", program.run("keep", "--file", file, given=b"OPEN\n").status, DISK_FAULT)
        session.answer("INSERT INTO note VALUES (2, 'two')")
    expect("behind it", ids(file), ["1", "2"])


def other_files_are_refused(folder: pathlib.Path) -> None:
    kept, hosted, text = (folder / name for name in ("journal", "log", "text"))
    no_database = (DAMAGED, "ifdb: the file is no database\n")
    program.run("keep", "--file", kept, given=(ROOT / "examples/kept.script").read_bytes())
    expect("a journal of keep's", refused(kept), no_database)
    text.write_text("ifdb log 2      \nnotes\n")
    expect("a file of something else", refused(text), no_database)
    no_file = (DISK_FAULT, "ifdb: a file can't be opened, read or written, or another program has it\n")
    expect("a file in no folder", refused(folder / "nowhere" / "log"), no_file)
    made(hosted)
    before = hosted.read_bytes()
    ran = program.run("keep", "--file", hosted, given=b"OPEN\n")
    expect("keep over a database", (ran.status, ran.written, ran.said), (DAMAGED, b"", b"ifdb: the journal is damaged at byte 0\n"))
    expect("the database behind it", hosted.read_bytes(), before)
    hosted.write_bytes(before[:-1] + b"\1")
    expect("a database with an open gate at its end", refused(hosted), (DAMAGED, f"ifdb: the journal is damaged at byte {len(before) - 1}\n"))


def what_is_looked_through_stays(folder: pathlib.Path) -> None:
    file, text = folder / "looked", folder / "text of notes"
    made(file, "CREATE TAG secret", "INSERT INTO note VALUES (1, 'one'), (2, 'two')", "DELETE FROM note WHERE id = 1")
    before = file.read_bytes()
    looked = program.run("inspect", "--file", file)
    expect("what a database comes to", (looked.status, looked.written, looked.said), (0, b"changes 2\nrows 1\n", b""))
    with host(file):
        expect("a look at a served file", program.run("inspect", "--file", file).status, DISK_FAULT)
    file.write_bytes(before[:-1] + b"\1")
    expect("a damaged file", program.run("inspect", "--file", file).status, DAMAGED)
    expect("the file", file.read_bytes(), before[:-1] + b"\1")
    text.write_text("notes\n" * 9)
    expect("a file of something else", program.run("inspect", "--file", text).status, DAMAGED)
    expect("no file", program.run("inspect", "--file", folder / "none").status, DISK_FAULT)
    expect("that one is made", (folder / "none").exists(), False)


def without_a_key_nobody_is_served(folder: pathlib.Path) -> None:
    file, key = folder / "keyless", folder / "key"
    words = ("host", "--file", file, "--admin-key", key, f"--port={program.free_port()}")
    expect("no file of a key", program.run(*words).status, DISK_FAULT)
    key.write_text("\nsecond line\n")
    ran = program.run(*words)
    expect("a file without a key", (ran.status, ran.said), (DAMAGED, b"ifdb: the first line of the file of admin's key is no key\n"))
    expect("that neither made the database", file.exists(), False)
    made(file)
    with host(file) as server, program.connected(server.port) as session:
        expect("the key that all know", session.ask("HELLO admin KEY 'admin'"), ["ERR 4 BadKey"])
    key.write_text("another\r\n")
    with program.Server(("host", "--file", file, "--admin-key", key), quiet=True) as server, program.connected(server.port) as session:
        session.answer("HELLO admin KEY 'another'")
        expect("what the other key's admin sees", session.answer("SELECT id FROM note"), ["ROWS 0 1"])


def what_stands_before_damage_goes_on(folder: pathlib.Path) -> None:
    file, front = folder / "damaged", folder / "front"
    made(file, "INSERT INTO note VALUES (1, 'one')")
    place = file.stat().st_size - 1
    made_more = ["INSERT INTO note VALUES (2, 'two')", "INSERT INTO note VALUES (3, 'three')"]
    with host(file) as server, admin(server.port) as session:
        for request in made_more:
            session.answer(request)
    whole = file.read_bytes()
    at = whole.index(b"two")
    file.write_bytes(whole[:at] + b"six" + whole[at + 3 :])
    expect("a changed text", refused(file), (DAMAGED, f"ifdb: the journal is damaged at byte {place}\n"))
    with front.open("wb") as out:
        subprocess.run([ROOT / "examples/journal_front.sh", file, str(place)], stdout=out, check=True)
    expect("what stands before it", ids(front), ["1"])


def a_full_disk_loses_nothing(folder: pathlib.Path) -> None:
    """The loop that meets it ends the others, whose connections are silent."""
    file, told = folder / "full", 0
    with program.Server(program.hosting(file, loops=3), quiet=True, limits={resource.RLIMIT_FSIZE: FULL}) as server:
        with admin(server.port) as session, admin(server.port) as other:
            session.answer("CREATE TABLE note (id INT, body TEXT, PRIMARY KEY (id))")
            while not is_ended(session, f"INSERT INTO note VALUES ({told}, NULL)"):
                told += 1
            expect("the status", server.status(), DISK_FAULT)
            expect("another connection behind it", is_ended(other, "SELECT id FROM note"), True)
    expect("that there were some", told > 50, True)
    expect("what a start finds", ids(file), [str(it) for it in range(told)])


def a_database_is_compacted_in_its_place(folder: pathlib.Path) -> None:
    file, new = folder / "long", folder / "long.new"
    made(file, "CREATE TAG secret", "INSERT INTO note VALUES (1, 'one'), (2, 'two')", *["UPDATE note SET body = 'again' WHERE id = 1"] * 20)
    long = file.stat().st_size
    expect("a compaction", program.run("compact", "--file", file), (0, b"", b""))
    expect("that the file is shorter", file.stat().st_size < long // 2, True)
    expect("its mode", oct(file.stat().st_mode & 0o777), "0o600")
    expect("that no second file is left", new.exists(), False)
    with host(file) as server, admin(server.port) as session:
        expect("a compaction of a served file", program.run("compact", "--file", file).status, DISK_FAULT)
        expect("what is there", session.answer("SELECT id, body FROM note ORDER BY id"), ["ROWS 2 2", "1\tagain", "2\ttwo"])
        session.answer("SET LABEL (secret)")
        session.answer("INSERT INTO note VALUES (3, 'three')")
    again = file.read_bytes()
    new.write_text("somebody's notes")
    taken = b"ifdb: the name of the new file, with .new behind it, has another file\n"
    expect("a second file of somebody's", program.run("compact", "--file", file), (DAMAGED, b"", taken))
    expect("both files", (file.read_bytes(), new.read_text()), (again, "somebody's notes"))
    new.write_bytes(again[:40])
    expect("a compaction behind one that was cut short", program.run("compact", "--file", file).status, 0)
    expect("what is there at the empty label", ids(file), ["1", "2"])
    expect("a file that isn't there", program.run("compact", "--file", folder / "none").status, DISK_FAULT)
    expect("that it isn't made", (folder / "none").exists(), False)
    file.write_bytes(again[:-1] + b"\1")
    expect("a damaged one", program.run("compact", "--file", file).said, f"ifdb: the journal is damaged at byte {len(again) - 1}\n".encode())


TESTS: List[Callable[[pathlib.Path], None]] = [
    what_was_told_is_kept,
    nothing_is_kept_of_what_only_looks,
    one_program_has_a_file,
    other_files_are_refused,
    what_is_looked_through_stays,
    without_a_key_nobody_is_served,
    what_stands_before_damage_goes_on,
    a_full_disk_loses_nothing,
    a_database_is_compacted_in_its_place,
]


def main() -> int:
    if not program.can_host():
        print(f"hosted: nothing was tried: {program.path()} isn't there, or has no command host", file=sys.stderr)
        return NOT_HERE
    wrong = 0
    for test in TESTS:
        with tempfile.TemporaryDirectory(prefix="ifdb-hosted-") as folder:
            try:
                test(pathlib.Path(folder))
            except (Otherwise, OSError, program.Ended, program.Refused, subprocess.TimeoutExpired) as fault:
                wrong += 1
                print(f"hosted: {test.__name__}: {fault}")
    print(f"hosted: {len(TESTS)} tests, {wrong} wrong")
    return 1 if wrong else 0


if __name__ == "__main__":
    sys.exit(main())
