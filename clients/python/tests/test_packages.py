"""The package: a wheel is made without a network, installed from its file, and imported."""

import os
import pathlib
import re
import shutil
import subprocess
import sys
import tempfile
import unittest

import grace
from rooms import PATIENCE, expect_error
from lib.serving import Server

LIBRARY = pathlib.Path(__file__).resolve().parent.parent
PYTHONS = sys.executable, "/usr/bin/python3"


class TestPackage(unittest.TestCase):
    def output_of(self, *words, folder, path=""):
        """Runs a command in a folder. Returns what it prints."""
        done = subprocess.run(
            words, cwd=folder, capture_output=True, text=True, env={**os.environ, "PYTHONPATH": path},
        )
        self.assertEqual(done.returncode, 0, f"{words}: {done.stderr}")
        return done.stdout

    def python_that_makes_wheels(self):
        """Returns the path of a Python that has pip, setuptools and wheel."""
        for python in PYTHONS:
            words = python, "-c", "import setuptools, wheel, pip"
            if pathlib.Path(python).exists() and subprocess.run(words, capture_output=True).returncode == 0:
                return python
        self.skipTest("no Python here has pip, setuptools and wheel")

    def test_installed(self):
        """The wheel has the whole package, its types and the terminal client. The first program of the README runs by
        it."""
        python = self.python_that_makes_wheels()
        with tempfile.TemporaryDirectory() as name, Server(10, 4) as server:
            folder = pathlib.Path(name)
            ignored = shutil.ignore_patterns("__pycache__", "tests", "test")
            shutil.copytree(LIBRARY, folder / "source", ignore=ignored)
            offline = ["--no-deps", "--no-index"]
            self.output_of(
                python, "-m", "pip", "wheel", ".", *offline, "--no-build-isolation", "--wheel-dir", name,
                folder=folder / "source",
            )
            (wheel,) = folder.glob("*.whl")
            target = folder / "installed"
            self.output_of(
                python, "-m", "pip", "install", *offline, "--target", str(target), str(wheel), folder=folder,
            )
            self.assertEqual(
                sorted(path.name for path in (target / "grace").glob("*.*")),
                sorted(path.name for path in (LIBRARY / "grace").glob("*.*")),
                "the files of the package",
            )
            text = (LIBRARY / "README.md").read_text()
            program = re.search(r"^    from grace.*?(?=^With)", text, re.DOTALL | re.MULTILINE)[0]
            lines = [line[4:] for line in program.splitlines()]
            (folder / "program.py").write_text("\n".join(lines).replace("127.0.0.1:7000", server.name))
            self.assertEqual(
                self.output_of(python, "program.py", folder=folder, path=str(target)),
                "rect [{'x': 5, 'y': 7}]\n",
                "what the first program prints",
            )
            names = self.output_of(python, "-c", "import grace; print(grace.__all__)", folder=folder, path=str(target))
            self.assertEqual(names, f"{grace.__all__}\n", "what the package gives")
            self.output_of(python, "-m", "grace_client", "--help", folder=folder, path=str(target))

    def test_one_class_of_errors(self):
        """Each error of the package is a `GraceError`. So is one that a change ends with."""
        errors = grace.Refused, grace.Denied, grace.ProtocolFault, grace.Lost
        self.assertEqual([issubclass(it, grace.GraceError) for it in errors], [True] * len(errors), "which are")
        with Server(10, 4) as server, grace.Room(server.name, "other") as room:
            fault = expect_error("entering", grace.GraceError, room.entered, PATIENCE)
        words = "The server has no room with this name."
        self.assertEqual((fault.word, str(fault)), ("no-such-room", words), "the error")

    @unittest.skipUnless(shutil.which("mypy"), "there is no mypy")
    def test_types_by_mypy(self):
        """`mypy --strict` accepts the package."""
        with tempfile.TemporaryDirectory() as name:
            self.output_of("mypy", "--strict", "--cache-dir", name, "grace", folder=LIBRARY)
