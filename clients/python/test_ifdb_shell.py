"""Tests of the shell: what it shows, and the shell itself over the built program, with files, pipes and a terminal of its own."""

from __future__ import annotations

import os
import pathlib
import pty
import re
import select
import signal
import subprocess
import sys
import tempfile
import time
import unittest
from typing import Dict, List, Optional, Tuple
from unittest import mock

import ifdb
import ifdb_csv
import ifdb_shell
import program

SHELL = str(pathlib.Path(ifdb_shell.__file__).resolve())


class Showing(unittest.TestCase):
    """What is shown of replies and refusals."""

    def test_a_table(self) -> None:
        lines = list(ifdb_shell.table(["id", "name", "n"], [("7", "\u6f22\u5b57", "-1"), ("-12", "e\u0301 \x1b[2J", "x")]))
        self.assertEqual(
            lines,
            [
                "  id | name      | n",
                "-----+-----------+----",
                "   7 | \u6f22\u5b57      | -1",
                " -12 | e\u0301 \\x1b[2J | x",
            ],
        )

    def test_a_table_without_rows_or_values(self) -> None:
        self.assertEqual(list(ifdb_shell.table(["id", "b"], [])), [" id | b", "----+---"])
        self.assertEqual(list(ifdb_shell.table(["b"], [("",), ("x",)])), [" b", "---", "", " x"])
        self.assertEqual(list(ifdb_shell.table(["n"], [(None,), ("7",), ("-12",)])), ["   n", "-----", "", "   7", " -12"])
        self.assertEqual(list(ifdb_shell.table(["nn"], [(None,)])), [" nn", "----", ""])

    def test_a_terminal_obeys_nothing_that_is_shown(self) -> None:
        for text, told in (("a\tb\r", r"a\tb\r"), ("\x1b\x07", r"\x1b\x07"), ("\u202e\0", r"\u202e\x00"), ("a \\ b", r"a \ b")):
            self.assertEqual(ifdb_shell.shown(text), told)

    def test_a_caret_stands_under_its_byte(self) -> None:
        self.assertEqual(ifdb_shell.pointed("SHOW", 4), "  SHOW\n      ^")
        self.assertEqual(ifdb_shell.pointed("SELECT '\u6f22\u00e9', #", 16), "  SELECT '\u6f22\u00e9', #\n                ^")
        self.assertEqual(ifdb_shell.pointed("a\t#", 2), "  a\\t#\n     ^")


class Csv(unittest.TestCase):
    """A row as a line of CSV, there and back."""

    ROWS: List[Tuple[str, List[Optional[str]], List[ifdb.Value]]] = [
        ('1,"x"', ["1", "x"], [1, "x"]),
        ('-7,"a, ""b"" \\t"', ["-7", 'a, "b" \\t'], [-7, 'a, "b" \\t']),
        ('0,""', ["0", ""], [0, ""]),
        (",", [None, None], [None, None]),
        ('9,"\u6f22\r"', ["9", "\u6f22\r"], [9, "\u6f22\r"]),
    ]

    def test_there_and_back(self) -> None:
        for line, fields, values in self.ROWS:
            with self.subTest(line=line):
                self.assertEqual(ifdb_csv.written(values), line)
                for end in ("", "\n", "\r\n"):
                    self.assertEqual(ifdb_csv.fields_of(line + end), fields)
                self.assertEqual(list(map(ifdb_csv.value_of, fields, (int, str))), values)

    def test_what_others_write(self) -> None:
        self.assertEqual(ifdb_csv.fields_of("a b,\"7\",'x'\r\n"), ["a b", "7", "'x'"])
        self.assertEqual(ifdb_csv.fields_of(""), [None])
        for line in ('"a', 'a"', '"a"b', '1,"a""', '"a" ,1'):
            with self.subTest(line=line), self.assertRaises(ifdb_csv.BadLine):
                ifdb_csv.fields_of(line)
        for field in ("x", "", "1.5"):
            with self.subTest(field=field), self.assertRaises(ifdb_csv.BadLine):
                ifdb_csv.value_of(field, int)


class Completing(unittest.TestCase):
    """What Tab makes of what was typed."""

    def test_the_words_are_those_of_the_grammar(self) -> None:
        page = (program.ROOT / "docs/GRAMMAR.md").read_text()
        reserved = page.partition("These are reserved:\n\n")[2].partition("\n\n")[0].split()
        self.assertEqual(ifdb_shell.WORDS, [word for word in reserved if word not in ("CALL", "CLOSURE")])

    def test_words_names_and_commands(self) -> None:
        completer = ifdb_shell.Completer([".read", ".label"])
        completer.learn("INSERT INTO Note (id, body) VALUES (1, 'nothing it''s'), (2, NULL)")
        completer.learn("SELECT n.id FROM note n WHERE body = 'nought")
        cases = [
            ("SEL", "", ["SELECT "]),
            ("gra", "", ["grant "]),
            ("no", "SELECT id FROM ", ["not ", "note"]),
            ("NO", "SELECT id FROM ", ["NOT ", "note"]),
            ("n.", "SELECT ", ["n.body", "n.id", "n.n", "n.note"]),
            ("n.b", "SELECT ", ["n.body"]),
            (".l", "", [".label "]),
            ("n", ".dump ", ["n", "note"]),
            (".x", "", []),
        ]
        for text, before, found in cases:
            with self.subTest(text=text):
                self.assertEqual(completer.matches(text, before), found)


class OverAServer(unittest.TestCase):
    """A server with some rows, and the shell's ways to run."""

    server: program.Server

    @classmethod
    def setUpClass(cls) -> None:
        cls.server = program.Server()
        cls.addClassCleanup(cls.server.stop)
        status, _, told = cls.shell(SETTING)
        assert status == 0, told

    def setUp(self) -> None:
        folder = tempfile.TemporaryDirectory()
        self.addCleanup(folder.cleanup)
        self.folder = pathlib.Path(folder.name)

    @classmethod
    def shell(cls, text: str, *words: str, user: str = "admin", key: Optional[str] = "admin") -> Tuple[int, str, str]:
        """Runs the shell with this input, and returns its status, its output and what it said of failures."""
        ran = subprocess.run(
            [sys.executable, SHELL, *words, str(cls.server.port), user],
            input=text.encode(errors="surrogateescape"),
            capture_output=True,
            timeout=program.PATIENCE,
            env=environment(key),
        )
        return ran.returncode, ran.stdout.decode(), ran.stderr.decode()


SETTING = """\
CREATE COMPOUND TAG ward
CREATE TAG ann IN (ward)
CREATE PRINCIPAL ann KEY 'a'
GRANT ann TO ann
CREATE TABLE note (id INT, body TEXT, PRIMARY KEY (id))
INSERT INTO note VALUES (1, 'cough'), (20, 'flu')
"""


def environment(key: Optional[str], **more: str) -> Dict[str, str]:
    """An environment in which the shell finds this key."""
    kept = {name: value for name, value in os.environ.items() if name != "IFDB_KEY"}
    return {**kept, **({} if key is None else {"IFDB_KEY": key}), **more}


class Piped(OverAServer):
    """Files and pipes: rows on standard output, refusals on standard error, and a status."""

    def test_replies(self) -> None:
        text = "# a comment\n\nSELECT id, body FROM note\nSHOW LABEL\nDELETE FROM note WHERE id = 9\n.help\nBEGIN\nBYE\nBEGIN\n"
        told = " id | body\n----+-------\n  1 | cough\n 20 | flu\n(2 rows)\n\n{}\nOK, 0 rows\n" + ifdb_shell.HELP + "\nOK\nOK\n"
        self.assertEqual(self.shell(text), (0, told, ""))

    def test_a_refusal_is_told_with_its_line_and_the_rest_goes_on(self) -> None:
        told = "stdin:1: ERR 1 Syntax 7: the line is no request\n  SELECT # FROM note\n         ^\n"
        self.assertEqual(self.shell("SELECT # FROM note\nSHOW LABEL\n"), (1, "{}\n", told))
        told = "stdin:1: ERR 6 UnknownName: a name stands for nothing of the kind wanted there\n"
        self.assertEqual(self.shell("SELECT id FROM nothing\nSHOW LABEL\n", "--bail"), (1, "", told))

    def test_the_last_line_needs_no_newline(self) -> None:
        self.assertEqual(self.shell("SHOW LABEL"), (0, "{}\n", ""))
        self.assertEqual(self.shell("SHOW LABEL\r\n"), (0, "{}\n", ""))
        self.assertEqual(self.shell(""), (0, "", ""))

    def test_bytes_that_are_no_text(self) -> None:
        status, out, err = self.shell("SHOW LABEL\nSELECT '\udcff' FROM note\nSHOW LABEL\n")
        self.assertEqual((status, out), (1, "{}\n{}\n"))
        self.assertIn("stdin:2: a request can't hold", err)

    def test_labels_and_times(self) -> None:
        labels = ".label\n.label ann, ward\n.label\n.label ()\n.label\n"
        status, out, err = self.shell(labels + ".timing on\nSHOW LABEL\nROLLBACK\n.timing\n.timing x\n.label none\n")
        self.assertEqual((status, out), (1, "{}\nOK\n{ward}\nOK\n{}\ntimes are shown\n{}\ntimes are not shown\n"))
        self.assertEqual(
            err.splitlines(),
            [
                "stdin:8: ERR 10 NoTransaction: no transaction is open",
                "stdin:10: .timing is on or off",
                "stdin:11: ERR 6 UnknownName: a name stands for nothing of the kind wanted there",
            ],
        )

    def test_times(self) -> None:
        _, out, _ = self.shell(".timing\nSELECT id FROM note WHERE id = 1\nBEGIN\n")
        self.assertRegex(out, r"^times are shown\n id\n----\n  1\n\(1 row, [0-9.]+ ms\)\n\nOK, [0-9.]+ ms\n$")

    def test_files(self) -> None:
        inner, outer = self.folder / "inner", self.folder / "outer"
        inner.write_text(f"SHOW LABEL\nX\n.read {outer}\n")
        outer.write_text(f".read {inner}\n.label ann\nSHOW LABEL\n.read {self.folder}/none\n.nothing\n.read\n")
        status, out, err = self.shell(f".read {outer}\nSHOW LABEL\n")
        self.assertEqual((status, out), (1, "{}\nOK\n{ann}\n{ann}\n"))
        self.assertEqual(
            err.splitlines(),
            [
                f"{inner}:2: ERR 1 Syntax 0: the line is no request",
                "  X",
                "  ^",
                f"{inner}:3: {outer} is being read already",
                f"{outer}:4: can't read {self.folder}/none: No such file or directory",
                f"{outer}:5: there is no command .nothing; .help lists them",
                f"{outer}:6: can't read nothing: Is a directory",
            ],
        )
        words = [sys.executable, SHELL, str(self.server.port), "admin", str(inner)]
        ran = subprocess.run(words, capture_output=True, text=True, timeout=program.PATIENCE, env=environment("admin"))
        self.assertEqual((ran.returncode, ran.stdout), (1, "{}\n{}\nOK\n{ann}\n"))

    def test_rows_go_out_and_come_back(self) -> None:
        file = self.folder / "rows.csv"
        file.write_bytes(b'\xef\xbb\xbfbody,id\r\nflu,-7\r\n"a, ""b""",8\r\n\r\n"",9\r\n,10\r\n')
        made = "CREATE TABLE went (id INT, body TEXT, PRIMARY KEY (id))\n"
        status, out, err = self.shell(f"{made}.import {file} went\n.dump went\n.dump went body\n")
        rows = ['-7,"flu"', '8,"a, ""b"""', '9,""', "10,"]
        told = ["OK", "OK, 4 rows", "id,body", *rows, "body", *(row.partition(",")[2] for row in rows), ""]
        self.assertEqual((status, out, err), (0, "\n".join(told), ""))
        file.write_text("\n".join(told[2:7]))
        again = self.shell(f"DELETE FROM went\n.import {file} went\n.dump went id, body\n")
        self.assertEqual(again, (0, "\n".join(["OK, 4 rows", *told[1:7], ""]), ""))

    def test_what_is_no_table_of_rows(self) -> None:
        file = self.folder / "rows.csv"
        cases = [
            ("id,body\n" + "".join(f"{it},x\n" for it in range(100, 220)) + "107,x\n", "122: ERR 13 DuplicateKey"),
            ("id,body\n30,x\nx,y\n", "3: 'x' is no number"),
            ("id,body\n30,x\n31\n", "3: 1 values, and 2 columns"),
            ('id,body\n30,"x\ny"\n', "2: a quote isn't closed"),
            ("id,body\n30,x\n9223372036854775808,x\n", "3: 9223372036854775808 is no 64-bit number"),
            ("id,nothing\n30,x\n", "1: ERR 6 UnknownName"),
            ("id,no name\n30,x\n", "1: 'no name' is no name"),
            ("id\n30\n", "2: ERR 11 TypeMismatch"),
            ("", "1: '' is no name"),
        ]
        for text, said in cases:
            file.write_text(text)
            with self.subTest(said=said):
                status, out, err = self.shell(f".import {file} note\n.dump note id\n")
                self.assertEqual((status, out), (1, "id\n1\n20\n"))
                self.assertIn(f"stdin:1: {file}:{said}", err)
        status, out, err = self.shell(f".import {self.folder}/none note\n.import\n.dump\n.dump none\n.dump note x\n")
        self.assertEqual((status, out), (1, ""))
        self.assertEqual(
            [line.partition(": ")[2] for line in err.splitlines()],
            [
                f"can't read {self.folder}/none: No such file or directory",
                "can't read nothing: Is a directory",
                "the server doesn't tell which columns a table has: .dump TABLE COLUMN..",
                "the server doesn't tell which columns none has: .dump TABLE COLUMN..",
                "ERR 6 UnknownName: a name stands for nothing of the kind wanted there",
            ],
        )

    def test_rows_that_come_in_an_open_transaction(self) -> None:
        file = self.folder / "rows.csv"
        file.write_text("id,body\n30,x\n31,x\n30,x\n")
        status, out, err = self.shell(f"BEGIN\n.import {file} note\n.dump note id\nROLLBACK\n.dump note id\n")
        self.assertEqual((status, out), (1, "OK\nid\n1\n20\n30\n31\nOK\nid\n1\n20\n"))
        self.assertIn(f"stdin:2: {file}:4: ERR 13 DuplicateKey", err)

    def test_all_columns_go_by_their_places(self) -> None:
        _, out, _ = self.shell("SELECT * FROM note WHERE id = 1\n")
        self.assertEqual(out, " 1 | 2\n---+-------\n 1 | cough\n(1 row)\n\n")

    def test_keys_and_words(self) -> None:
        self.assertEqual(self.shell("SHOW LABEL\n", "--key", "a", user="ann", key=None), (0, "{}\n", ""))
        status, out, err = self.shell("SHOW LABEL\n", user="ann", key="b")
        self.assertEqual((status, out), (3, ""))
        self.assertIn("ERR 4 BadKey", err)
        status, _, err = self.shell("SHOW LABEL\n", key=None)
        self.assertEqual(status, 2)
        self.assertIn("no key", err)
        self.assertEqual(self.shell("", "--nonsense")[0], 2)
        status, _, err = self.shell("", user="ann KEY 'a'")
        self.assertEqual(status, 3)
        self.assertIn("is no name", err)

    def test_the_server_ends(self) -> None:
        server = program.Server()
        words = [sys.executable, SHELL, str(server.port), "admin"]
        pipes = {"stdin": subprocess.PIPE, "stdout": subprocess.PIPE, "stderr": subprocess.PIPE}
        with subprocess.Popen(words, env=environment("admin"), **pipes) as shell:  # type: ignore[call-overload]
            shell.stdin.write(b".help\n.label\n")
            shell.stdin.flush()
            while shell.stdout.readline() != b"{}\n":
                pass
            server.stop()
            out, err = shell.communicate(b"SHOW LABEL\nSHOW LABEL\n", timeout=program.PATIENCE)
        self.assertEqual((shell.returncode, out), (3, b""))
        self.assertRegex(err.decode(), r"^stdin:3: the (server ended the )?connection.*\n$")

    def test_a_reader_that_leaves_early(self) -> None:
        line = f"{sys.executable} {SHELL} {self.server.port} admin | head -n 1"
        asked = b"SELECT a.id FROM note a, note b, note c, note d\n" * 2000
        ran = subprocess.run(
            ["sh", "-c", line], input=asked, capture_output=True, timeout=program.PATIENCE, env=environment("admin")
        )
        self.assertEqual((ran.stdout, ran.stderr), (b" id\n", b""))


class Terminal:
    """The shell at a terminal of its own. It is typed to, and shows what a person would see."""

    def __init__(self, words: List[str], env: Dict[str, str]) -> None:
        self._process, self._link = pty.fork()
        if self._process == 0:
            signal.signal(signal.SIGINT, signal.SIG_DFL)  # whoever runs the tests in the background may ignore it
            os.execve(sys.executable, [sys.executable, SHELL, *words], env)
        self.seen = ""

    def expect(self, text: str, patience: float = program.PATIENCE) -> str:
        """Waits until this is shown, and returns what was shown before it."""
        until = time.monotonic() + patience
        while text not in self.seen:
            if not select.select([self._link], [], [], max(0.0, until - time.monotonic()))[0]:
                raise AssertionError(f"{text!r} isn't shown, but {self.seen!r}")
            self.seen += os.read(self._link, 65_536).decode().replace("\r\n", "\n")
        before, _, self.seen = self.seen.partition(text)
        return before

    def type(self, keys: str) -> None:
        os.write(self._link, keys.encode())

    def interrupt(self, prompt: str) -> None:
        """Presses ^C until the prompt is shown: Python's readline goes on waiting for a key where ^C comes just before it waits."""
        until = time.monotonic() + program.PATIENCE
        while True:
            self.type("\x03")
            try:
                self.expect(prompt, patience=1.0)
                return
            except AssertionError:
                if time.monotonic() > until:
                    raise

    def status(self) -> int:
        """The status with which the shell ends."""
        try:
            while os.read(self._link, 65_536):
                pass
        except OSError:
            pass  # so a terminal tells that nobody is at its other side
        os.close(self._link)
        return os.waitstatus_to_exitcode(os.waitpid(self._process, 0)[1])


class AtATerminal(OverAServer):
    """The prompt, editing, history, and the keys that a terminal has."""

    def terminal(self, *, user: str = "ann", key: Optional[str] = "a") -> Terminal:
        more = {"TERM": "dumb", "IFDB_HISTORY": str(self.folder / "history")}
        return Terminal([str(self.server.port), user], environment(key, **more))

    def test_the_prompt_has_principal_label_and_transaction(self) -> None:
        shell = self.terminal()
        for keys, prompt in [
            ("", "ann {}> "),
            ("SET LABEL (ann)\n", "ann {ann}> "),
            (".label ann ward\n", "ann {ward}> "),
            ("BEGIN\n", "ann {ward}*> "),
            ("SET LABEL ()\n", "ann {ward}*> "),
            ("COMMIT\n", "ann {ward}> "),
        ]:
            shell.type(keys)
            shell.expect(prompt)
        shell.type("BYE\n")
        self.assertEqual(shell.status(), 0)

    def test_rows_have_a_count_and_a_time(self) -> None:
        shell = self.terminal()
        shell.expect("> ")
        shell.type("SELECT body FROM note\n")
        self.assertRegex(shell.expect("ann {}> "), r"body\n-------\n cough\n flu\n\(2 rows, [0-9.]+ ms\)\n\n$")
        shell.type(".timing off\nBEGIN\n")
        shell.expect("OK\nann {}*> ")
        shell.type("\x04")
        self.assertEqual(shell.status(), 0)

    def test_a_refusal_has_a_caret_and_is_no_failure(self) -> None:
        shell = self.terminal()
        shell.expect("> ")
        shell.type("SELECT # FROM note\n")
        self.assertIn("ERR 1 Syntax 7: the line is no request\n  SELECT # FROM note\n         ^\n", shell.expect("ann {}> "))
        shell.type(".quit\n")
        self.assertEqual(shell.status(), 0)

    def test_editing_and_interrupts(self) -> None:
        shell = self.terminal()
        shell.expect("> ")
        shell.type("HOW LABEL\x01S\n")  # to the beginning of the line, and an S there
        shell.expect("{}\nann {}> ")
        shell.type("\x1b[A\n")  # the line before
        shell.expect("{}\nann {}> ")
        shell.type("\x1b[A")
        shell.expect("SHOW LABEL")  # so the line is being edited, and isn't only about to be
        shell.interrupt("ann {}> ")
        shell.type("SHOW LABEL\n")
        shell.expect("{}\nann {}> ")
        shell.type("\x04")
        self.assertEqual(shell.status(), 0)

    def test_tab_completes(self) -> None:
        shell = self.terminal()
        shell.expect("> ")
        shell.type("SHO\tLAB\t\n")
        shell.expect("{}\nann {}> ")
        shell.type(".tim\toff\n")
        shell.expect("times are not shown\nann {}> ")
        shell.type("SELECT body FROM note WHERE id = 1\n")
        shell.expect("cough\n(1 row)\n\nann {}> ")
        shell.type("SEL\tid FR\tnote WH\tbo\t = 'cough'\n")
        shell.expect(" 1\n(1 row)\n\nann {}> ")
        shell.type("\x04")
        self.assertEqual(shell.status(), 0)

    def test_an_import_tells_how_far_it_is(self) -> None:
        file = self.folder / "rows.csv"
        file.write_text("id,body\n" + "".join(f"{it},x\n" for it in range(100, 350)))
        shell = self.terminal()
        shell.expect("> ")
        shell.type(f".label ann\n.timing off\n.import {file} note\n")
        shell.expect(f"{file}: 100 rows")
        shell.expect("OK, 250 rows\nann {ann}> ")
        shell.type("DELETE FROM note WHERE id >= 100\n\x04")
        self.assertEqual(shell.status(), 0)

    def test_a_history_without_keys(self) -> None:
        shell = self.terminal(user="admin", key="admin")
        shell.expect("> ")
        for line in ("CREATE PRINCIPAL cy KEY 'c'", "SHOW LABEL", "CREATE TABLE t (a INT, PRIMARY KEY (a))"):
            shell.type(line + "\n")
            shell.expect("admin {}> ")
        shell.type("\x04")
        self.assertEqual(shell.status(), 0)
        history = self.folder / "history"
        self.assertEqual(history.read_text(), "SHOW LABEL\nCREATE TABLE t (a INT, PRIMARY KEY (a))\n")
        self.assertEqual(history.stat().st_mode & 0o777, 0o600)
        shell = self.terminal()
        shell.expect("> ")
        shell.type("\x1b[A\x1b[A\n")
        shell.expect("{}\nann {}> ")
        shell.type("\x04")
        self.assertEqual(shell.status(), 0)

    def test_a_key_is_asked_for_and_not_shown(self) -> None:
        shell = self.terminal(key=None)
        shell.expect("key of ann: ")
        shell.type("a\n")
        self.assertEqual(shell.expect("ann {}> ").strip(), "")
        shell.type("\x04")
        self.assertEqual(shell.status(), 0)

    def test_the_server_ends(self) -> None:
        with mock.patch.object(self, "server", program.Server()) as server:
            shell = self.terminal(user="admin", key="admin")
            shell.expect("> ")
            server.stop()
        shell.type("SHOW LABEL\n")
        self.assertEqual(shell.status(), 3)


if __name__ == "__main__":
    unittest.main()
