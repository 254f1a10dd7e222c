"""The tests of the crates' public calls, in src/: one program, which `rt try --test` builds without proofs. A test fails
at an overflow, at an index out of bounds, and at what the address sanitizer finds."""

import pathlib
import re
import subprocess
import tempfile
import unittest

from lib.tree_copy import add_crate, copy_files

SOURCES = pathlib.Path(__file__).resolve().parent / "src"
LIBRARIES = (
    "base_types byte_streams journal rules wire wire_reader record_file room_core renewal late_join world commands metrics"
    " room_lock keeper connection loops sessions room_watch tungstenite mio log"
)
TEST = re.compile(r"^#\[test\]\n(?:#.*\n)*fn (\w+)", re.MULTILINE)
# A test's line, and the indented lines behind it that say why it failed.
OUTCOME = re.compile(r"^test (\S+) \.\.\. (.*(?:\n    .*)*)", re.MULTILINE)


def names():
    """Returns the names of the tests, as the program prints them."""
    found = []
    for path in sorted(SOURCES.rglob("*.rt.in")):
        module = "::".join(path.relative_to(SOURCES).parts).removesuffix(".rt.in")
        found += [f"{module}::{name}" for name in TEST.findall(path.read_text())]
    return found


def run():
    """Builds the program in a copy of the crates, and runs all tests. Returns what it printed."""
    with tempfile.TemporaryDirectory() as name:
        folder = pathlib.Path(name)
        copy_files(folder, "crates", "crates.txt", "HANDLES")
        crate = add_crate(folder, "call_tests", "tests/crates", LIBRARIES)
        return subprocess.run(
            ["rt", "try", "--test"], cwd=crate, stdin=subprocess.DEVNULL, stdout=subprocess.PIPE,
            stderr=subprocess.STDOUT, text=True, errors="replace",
        ).stdout


class TestCalls(unittest.TestCase):
    @classmethod
    def setUpClass(cls):
        cls.printed = run()
        cls.outcomes = dict(OUTCOME.findall(cls.printed))

    def test_all_ran(self):
        """The program ran the tests of the sources, and no other."""
        self.assertEqual(sorted(self.outcomes), sorted(names()), self.printed[-3000:])

    def expect_passed(self, name):
        """Expects that the test of this name passed."""
        self.assertEqual(self.outcomes.get(name, "not run"), "ok")


def method_of(name):
    """Returns the method that tells of the test of this name."""
    return lambda self: self.expect_passed(name)


for test in names():
    setattr(TestCalls, f"test_{test.replace('::', '_')}", method_of(test))
