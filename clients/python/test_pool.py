"""Tests of the client's pool, of TLS, and of connections that are made anew, over the built program."""

from __future__ import annotations

import pathlib
import shutil
import ssl
import subprocess
import tempfile
import threading
import unittest
from typing import Any, List

import ifdb
import program
import relay

CERTIFICATES = program.ROOT / "examples/tls/certificates.sh"
SETTING = [
    "CREATE TAG ann",
    "CREATE TAG bob",
    "CREATE PRINCIPAL ann KEY 'a'",
    "GRANT ann TO ann",
    "CREATE TABLE note (id INT, body TEXT, PRIMARY KEY (id))",
]


class OverAServer(unittest.TestCase):
    """A server with a principal, ann, who holds the tag ann and not the tag bob."""

    server: program.Server

    def setUp(self) -> None:
        self.server = program.Server(program.serving(workers=4))
        self.addCleanup(self.server.stop)
        with ifdb.connect(self.server.port, "admin", "admin", autocommit=True) as admin:
            for request in SETTING:
                admin.cursor().execute(request)

    def pool(self, **more: Any) -> ifdb.Pool:
        pool = ifdb.Pool(self.server.port, "ann", "a", timeout=program.PATIENCE, **more)
        self.addCleanup(pool.close)
        return pool

    def connect(self, port: int, **more: Any) -> ifdb.Connection:
        connection = ifdb.connect(port, "ann", "a", timeout=program.PATIENCE, **more)
        self.addCleanup(connection.close)
        return connection

    def notes(self, *label: str) -> List[ifdb.Row]:
        """The notes that a session at a label sees."""
        with ifdb.connect(self.server.port, "admin", "admin") as admin:
            admin.label = frozenset(label)
            return admin.cursor().execute("SELECT id FROM note").fetchall()


class Pools(OverAServer):
    """What goes back to a pool, and who gets it."""

    def test_threads_share_a_pool_of_few_connections(self) -> None:
        with program.Server(program.serving(workers=2, links=1)) as server:  # so there are no more than two connections ever
            with ifdb.Pool(server.port, "admin", "admin", timeout=program.PATIENCE, size=2) as pool:
                with pool.connection() as one, pool.connection() as other:
                    one.cursor().execute("CREATE TABLE note (id INT, PRIMARY KEY (id))")
                    self.assertEqual(other.cursor().execute("SELECT id FROM note").fetchall(), [])

                def write(begin: int) -> None:
                    for number in range(begin, begin + 10):
                        with pool.connection() as connection:
                            connection.cursor().execute("INSERT INTO note VALUES (?)", (number,))

                threads = [threading.Thread(target=write, args=(100 * it,)) for it in range(6)]
                for thread in threads:
                    thread.start()
                for thread in threads:
                    thread.join()
            summary = server.summary()
        self.assertEqual((summary["sessions"], summary["rows"], summary["faults"]), (2, 60, 0))

    def test_a_block_commits_or_rolls_back(self) -> None:
        pool = self.pool(size=1)
        with pool.connection() as connection:
            connection.cursor().execute("INSERT INTO note VALUES (1, 'x')")
        with self.assertRaises(ZeroDivisionError), pool.connection() as connection:
            connection.cursor().execute("INSERT INTO note VALUES (2, 'x')")
            1 / 0
        with pool.connection() as connection:
            self.assertFalse(connection.in_transaction)
        self.assertEqual(self.notes(), [(1,)])

    def test_a_connection_goes_back_at_the_empty_label(self) -> None:
        pool = self.pool(size=1)
        with self.assertRaises(ZeroDivisionError), pool.connection() as connection:
            connection.label = {"ann"}
            connection.cursor().execute("INSERT INTO note VALUES (1, 'x')")
            1 / 0
        with pool.connection() as connection:
            self.assertEqual(connection.label, set())
            self.assertEqual(connection.cursor().execute("SELECT id FROM note").fetchall(), [])
        self.assertEqual(self.notes("ann"), [])

    def test_one_that_cant_come_down_is_closed(self) -> None:
        with program.Server(program.serving(workers=1, links=3)) as server:  # (one is served once the one before it is closed)
            with ifdb.connect(server.port, "admin", "admin") as admin:
                admin.cursor().execute("CREATE TAG secret")
                admin.cursor().execute("CREATE PRINCIPAL bob KEY 'b'")
            with ifdb.Pool(server.port, "bob", "b", timeout=program.PATIENCE, size=1) as pool:
                with pool.connection() as connection:
                    connection.label = {"secret"}
                with pool.connection() as connection:
                    self.assertEqual(connection.label, set())
            self.assertEqual(server.summary()["sessions"], 3)

    def test_a_commit_that_is_refused_is_told(self) -> None:
        pool = self.pool(size=1)
        with self.assertRaises(ifdb.ProgrammingError) as caught, pool.connection() as connection:
            connection.cursor().execute("INSERT INTO note VALUES (1, 'x')")
            connection.label = {"ann"}
        self.assertEqual(caught.exception.name, "CommitLabel")
        with pool.connection() as connection:
            self.assertEqual(connection.label, set())
        self.assertEqual(self.notes(), [])

    def test_who_gave_a_connection_back_has_it_no_more(self) -> None:
        pool = self.pool(size=1)
        with pool.connection() as first:
            cursor = first.cursor()
        with pool.connection() as second:
            for use in (first.cursor, first.commit, lambda: first.label, lambda: cursor.execute("SHOW LABEL")):
                self.assertRaisesRegex(ifdb.InterfaceError, "closed", use)
            first.close()
            self.assertEqual(second.label, set())

    def test_one_that_was_closed_or_lost_is_replaced(self) -> None:
        with relay.Relay(self.server.port) as way:
            pool = ifdb.Pool(way.port, "ann", "a", timeout=program.PATIENCE, size=1)
            self.addCleanup(pool.close)
            with pool.connection() as connection:
                connection.close()
            with pool.connection() as connection:
                connection.cursor().execute("INSERT INTO note VALUES (1, 'x')")
            way.cut()
            with pool.connection() as connection:
                self.assertEqual(connection.cursor().execute("SELECT id FROM note").fetchall(), [(1,)])
                way.cut()
                with self.assertRaises(ifdb.OperationalError) as caught:
                    connection.cursor().execute("INSERT INTO note VALUES (2, 'x')")
                self.assertIsNone(caught.exception.number)
            with pool.connection() as connection:
                self.assertEqual(connection.cursor().execute("SELECT id FROM note").fetchall(), [(1,)])

    def test_waiting_has_an_end(self) -> None:
        with ifdb.Pool(self.server.port, "ann", "a", timeout=0.2, size=1) as pool, pool.connection():
            with self.assertRaisesRegex(ifdb.OperationalError, "none of 1 connections was free within 0.2 s"):
                with pool.connection():
                    self.fail("there is one connection")

    def test_a_pool_that_is_closed(self) -> None:
        pool = self.pool()
        with pool.connection() as connection:
            pool.close()
            connection.cursor().execute("INSERT INTO note VALUES (1, 'x')")
        with self.assertRaisesRegex(ifdb.InterfaceError, "the pool is closed"), pool.connection():
            self.fail("the pool is closed")
        self.assertEqual(self.notes(), [(1,)])

    def test_a_wrong_key_takes_no_place(self) -> None:
        pool = ifdb.Pool(self.server.port, "ann", "b", timeout=program.PATIENCE, size=1)
        for _ in range(2):
            with self.assertRaises(ifdb.OperationalError) as caught, pool.connection():
                self.fail("the key is wrong")
            self.assertEqual(caught.exception.name, "BadKey")
        self.assertRaises(ifdb.ProgrammingError, ifdb.Pool, 1, "ann", "a", size=0)
        self.assertRaises(ifdb.ProgrammingError, ifdb.Pool, 1, "no name", "a")


class Reconnecting(OverAServer):
    """A connection that ended while nobody asked is made anew, if it is to be; and no other."""

    def setUp(self) -> None:
        super().setUp()
        self.relay = relay.Relay(self.server.port)
        self.addCleanup(self.relay.__exit__, None, None, None)

    def test_it_goes_on_at_its_label(self) -> None:
        connection = self.connect(self.relay.port, reconnect=True)
        connection.label = {"ann"}
        self.relay.cut()
        connection.cursor().execute("INSERT INTO note VALUES (1, 'x')")
        connection.commit()
        self.relay.cut()
        self.assertEqual(connection.label, {"ann"})
        self.assertEqual((self.notes(), self.notes("ann")), ([], [(1,)]))
        with connection.at("bob"):
            self.relay.cut()
            self.assertEqual(connection.label, {"ann", "bob"})
            self.relay.cut()  # so the block's end finds a connection that may lower nothing
            with self.assertRaises(ifdb.ProgrammingError) as caught:
                connection.label = frozenset()
            self.assertEqual(caught.exception.name, "NoAuthority")
            connection.close()

    def test_not_in_a_transaction(self) -> None:
        connection = self.connect(self.relay.port, reconnect=True)
        connection.cursor().execute("INSERT INTO note VALUES (1, 'x')")
        self.relay.cut()
        with self.assertRaises(ifdb.OperationalError):
            connection.commit()
        self.assertFalse(connection.is_open)
        self.assertRaises(ifdb.InterfaceError, connection.cursor)
        self.assertEqual(self.notes(), [])

    def test_not_unless_it_is_to_be(self) -> None:
        connection = self.connect(self.relay.port)
        self.relay.cut()
        with self.assertRaises(ifdb.OperationalError):
            connection.cursor().execute("SHOW LABEL")
        self.assertFalse(connection.is_open)

    def test_not_once_it_is_closed(self) -> None:
        connection = self.connect(self.relay.port, reconnect=True)
        connection.close()
        self.assertRaises(ifdb.InterfaceError, lambda: connection.label)

    def test_whether_a_session_has_ended(self) -> None:
        session = ifdb.Session(self.relay.port, timeout=program.PATIENCE)
        self.assertFalse(session.has_ended())
        session.ask("HELLO ann KEY 'a'")
        self.assertFalse(session.has_ended())
        self.assertEqual(session.ask("SHOW LABEL"), ifdb.Label(()))
        self.relay.cut()
        self.assertTrue(session.has_ended())
        self.assertFalse(session.is_open)
        self.assertTrue(session.has_ended())


@unittest.skipUnless(shutil.which("openssl"), "openssl isn't there, which makes the certificates")
class Tls(OverAServer):
    """TLS in front of the server, by a relay in place of what people use."""

    folder: pathlib.Path

    @classmethod
    def setUpClass(cls) -> None:
        folder = tempfile.TemporaryDirectory()
        cls.addClassCleanup(folder.cleanup)
        cls.folder = pathlib.Path(folder.name)
        subprocess.run([CERTIFICATES, cls.folder], check=True)

    def relay(self, certificate: str = "server.pem") -> relay.Relay:
        """A relay with a certificate, which wants one of who connects."""
        context = ssl.create_default_context(ssl.Purpose.CLIENT_AUTH, cafile=str(self.folder / "authority.pem"))
        context.verify_mode = ssl.CERT_REQUIRED
        context.load_cert_chain(self.folder / certificate)
        way = relay.Relay(self.server.port, context)
        self.addCleanup(way.__exit__, None, None, None)
        return way

    def context(self, certificate: str = "") -> ssl.SSLContext:
        context = ssl.create_default_context(cafile=str(self.folder / "authority.pem"))
        if certificate:
            context.load_cert_chain(self.folder / certificate)
        return context

    def test_who_has_a_certificate_is_served(self) -> None:
        way = self.relay()
        with self.connect(way.port, ssl=self.context("client.pem")) as connection:
            connection.cursor().execute("INSERT INTO note VALUES (?, ?)", (1, "x" * 60_000))
        with self.connect(way.port, host="localhost", ssl=self.context("client.pem")) as connection:
            rows = connection.cursor().execute("SELECT body FROM note").fetchall()
        self.assertEqual(rows, [("x" * 60_000,)])

    def test_who_has_none_gets_nothing(self) -> None:
        way = self.relay()
        for certificate in ("", "stranger.pem"):
            with self.assertRaises(ifdb.OperationalError) as caught:
                self.connect(way.port, ssl=self.context(certificate))
            self.assertIsNone(caught.exception.number)
        with self.assertRaises(ifdb.Error):
            self.connect(way.port)

    def test_another_host_is_refused(self) -> None:
        with self.assertRaisesRegex(ifdb.OperationalError, "no connection to port"):
            self.connect(self.relay("client.pem").port, ssl=self.context("client.pem"))

    def test_a_pool_over_tls(self) -> None:
        way = self.relay()
        with ifdb.Pool(way.port, "ann", "a", timeout=program.PATIENCE, size=1, ssl=self.context("client.pem")) as pool:
            with pool.connection() as connection:
                connection.cursor().execute("INSERT INTO note VALUES (1, 'x')")
            with pool.connection() as connection:
                session = connection._session
            with pool.connection() as connection:
                self.assertIs(connection._session, session)
            way.cut()
            with pool.connection() as connection:
                self.assertIsNot(connection._session, session)
                self.assertEqual(connection.cursor().execute("SELECT id FROM note").fetchall(), [(1,)])


if __name__ == "__main__":
    unittest.main()
