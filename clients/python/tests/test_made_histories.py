"""The histories of clients/histories, which the program has made: the package shows the same, and the program still
makes the same file."""

import json
import pathlib
import subprocess
import sys
import tempfile
import unittest

from grace import Drawing, operation_of
from grace.forms import frozen
from test_shown_rows import shown

FOLDER = pathlib.Path(__file__).resolve().parent.parent.parent / "histories"
FILE = FOLDER / "histories.json"


class TestMadeHistories(unittest.TestCase):
    def test_histories_of_the_folder(self):
        """After the stated number of entries each object has the stated versions."""
        histories = json.loads(FILE.read_text(encoding="utf-8"))
        for number, history in enumerate(histories):
            drawing, count, entries = Drawing(), 0, frozen(history["entries"])
            for at, name, kind, versions in frozen(history["shown"]):
                for entry in entries[count:at]:
                    operation = operation_of(entry)
                    if operation is not None:
                        drawing.add(operation)
                count = at
                self.assertEqual(
                    (drawing.kind(name), frozen(shown(drawing, name))),
                    (kind, versions),
                    f"history {number}, object {name} after {at} entries",
                )
            self.assertEqual(count, len(entries), f"the entries of history {number}")
        self.assertEqual(len(histories), 200, "how many there are")

    def test_histories_that_the_program_makes(self):
        """The script makes the same file with the program of today."""
        with tempfile.TemporaryDirectory() as name:
            path = pathlib.Path(name) / "histories.json"
            subprocess.run([sys.executable, FOLDER / "make", path], check=True)
            self.assertTrue(path.read_bytes() == FILE.read_bytes(), "whether it is the same")
