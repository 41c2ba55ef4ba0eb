"""Tests of the package: it is made without anything else, and what pip installs of it can be used."""

from __future__ import annotations

import importlib.util
import os
import pathlib
import subprocess
import sys
import tempfile
import unittest
from typing import List

import make_wheel

HERE = pathlib.Path(__file__).resolve().parent


class Package(unittest.TestCase):
    """The wheel, and a folder in which it is installed."""

    def setUp(self) -> None:
        folder = tempfile.TemporaryDirectory()
        self.addCleanup(folder.cleanup)
        self.folder = pathlib.Path(folder.name)

    def run_there(self, *words: str) -> str:
        """What a command writes which finds the folder's modules, and no others of this repository."""
        told = subprocess.run(
            words, capture_output=True, text=True, cwd=self.folder, env={**os.environ, "PYTHONPATH": str(self.folder)}, check=False
        )
        self.assertEqual(told.returncode, 0, told.stderr)
        return told.stdout

    def test_the_same_sources_give_the_same_file(self) -> None:
        wheels: List[bytes] = []
        for _ in range(2):
            wheels.append((self.folder / make_wheel.build_wheel(str(self.folder))).read_bytes())
        self.assertEqual(wheels[0], wheels[1])

    @unittest.skipUnless(importlib.util.find_spec("pip"), "this Python has no pip")
    def test_pip_installs_it(self) -> None:
        pip = [sys.executable, "-m", "pip", "install", "--quiet", "--disable-pip-version-check", "--no-index"]
        self.run_there(*pip, "--no-build-isolation", "--target", str(self.folder), str(HERE))
        told = self.run_there(sys.executable, "-c", "import ifdb; print(ifdb.__file__)")
        self.assertEqual(pathlib.Path(told.strip()), self.folder / "ifdb.py")
        self.assertIn("usage: ifdb-shell", self.run_there(str(self.folder / "bin/ifdb-shell"), "--help"))


if __name__ == "__main__":
    unittest.main()
