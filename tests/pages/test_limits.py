"""Limits and statuses: the tables of docs/PROTOCOL.md and docs/OPERATIONS.md, the server's source and the clients
agree."""

import re
import sys
import unittest

from lib.pages import source_with, table_of
from lib.serving import ROOT

PROTOCOL, OPERATIONS = ROOT / "docs/PROTOCOL.md", ROOT / "docs/OPERATIONS.md"
# A constant of the sources, a word in its row of the table, and a word that is not in it.
CONSTANTS = [
    ("MAX_JOINS", "join", "page"),
    ("MAX_ENTRIES", "entries", "page"),
    ("MAX_OBJECTS", "objects", "page"),
    ("MAX_CHANGES", "changes of", "keys"),
    ("MAX_KEYS", "keys", "page"),
    ("MAX_VERSIONS", "versions", "page"),
    ("MAX_PAGE", "page", "message"),
    ("MAX_REQUEST_LEN", "a message", "page"),
]
# The clients' names of the limits, and the constant or type of the sources for each. Creations and puts have the same
# limit of attributes, which only the table has.
SOURCE_NAMES = {
    "sites": "MAX_JOINS", "entries": "MAX_ENTRIES", "objects": "MAX_OBJECTS", "changes": "MAX_CHANGES",
    "keys": "MAX_KEYS", "versions": "MAX_VERSIONS", "messageBytes": "MAX_REQUEST_LEN", "textBytes": "MAX_VALUE_LEN",
    "wordBytes": "Key", "roomBytes": "MAX_ROOM_LEN",
}


def longest(name):
    """Returns the most bytes of a text of this type."""
    return int(re.search(rf"pub type {name} = Label<(\d+),", source_with(f"pub type {name} = Label<"))[1])


def javascript_limits():
    """Returns the limits of the JavaScript client."""
    text = (ROOT / "clients/js/forms.js").read_text()
    inside = re.search(r"export const LIMITS = Object\.freeze\(\{(.*?)\}\)", text, re.DOTALL)[1]
    return {name: int(number) for name, number in re.findall(r"(\w+): (\d+)", inside)}


def python_limits():
    """Returns the limits of the Python client, by the names of the JavaScript one."""
    sys.path.insert(0, str(ROOT / "clients/python"))
    try:
        from grace.forms import LIMITS
    finally:
        sys.path.pop(0)
    return {re.sub(r"_(\w)", lambda it: it[1].upper(), name): number for name, number in vars(LIMITS).items()}


class TestLimits(unittest.TestCase):
    def number_of(self, text):
        """Returns the number at the start of a text, with commas or underscores between its digits."""
        found = re.match(r"[\d,_]+", text)
        self.assertTrue(found, f"{text!r} begins with no number")
        return int(re.sub(r"[,_]", "", found[0]))

    def constant(self, name):
        """Returns the value of a constant of the sources."""
        return self.number_of(re.search(rf"pub const {name}: \w+ = ([\d_]+);", source_with(f"pub const {name}: "))[1])

    def row_with(self, word, other):
        """Returns the number in the only row of the table of limits that has the first word and not the other."""
        rows = table_of(PROTOCOL, "What", "At most")
        found = [self.number_of(most) for what, most in rows if word in what and other not in what]
        self.assertEqual(len(found), 1, f"the rows of the table of limits that match {word}")
        return found[0]

    def test_limit(self):
        """The row of the table agrees with the source."""
        for name, word, other in CONSTANTS:
            with self.subTest(name):
                self.assertEqual(self.row_with(word, other), self.constant(name), f"the row of {name}")

    def test_client(self):
        """A client's limits agree with the sources, and its limit of attributes with the table."""
        names = [*(name for name, *_ in CONSTANTS), "MAX_VALUE_LEN", "MAX_ROOM_LEN"]
        known = {name: self.constant(name) for name in names} | {name: longest(name) for name in ("Key", "Kind")}
        self.assertEqual(known["Kind"], known["Key"], "the longest kind")
        expected = {name: known[source] for name, source in SOURCE_NAMES.items()}
        expected["attributes"] = self.row_with("attributes", "page")
        for name, limits in [("in JavaScript", javascript_limits), ("in Python", python_limits)]:
            with self.subTest(name):
                self.assertEqual(limits(), expected)


# ---- the program's lines and statuses


def status_of(line, cell):
    """Returns the status that the page gives a line of this cell: what stands above the table."""
    if line == "no memory":
        return 4
    return 2 if "`clap`" in cell else 3


def lines_of_page():
    """Returns the last lines on standard error in the table of docs/OPERATIONS.md, with their statuses."""
    cells = [cell for cell, _ in table_of(OPERATIONS, "Line", "What it means and asks for")]
    return {line: status_of(line, cell) for cell in cells for line in re.findall(r"`grace: ([^`]*)`", cell)}


class TestStatuses(unittest.TestCase):
    def statuses_of_commands(self):
        """Returns the message of each fault of a command, with its status."""
        text = source_with("    RoomNamedTwice,\n")
        texts = {name: message for message, name in re.findall(r'#\[error\("(.*?)"\)\]\n\s+(\w+)', text)}
        body = re.search(r"pub fn status\(self\) -> u8.*?\n    \}\n", text, re.DOTALL)[0]
        arms = re.findall(r"((?:Fault::\w+(?:\(_\))?\s*\|?\s*)+)=> (\d+),", body)
        codes = {name: int(status) for names, status in arms for name in re.findall(r"Fault::(\w+)", names)}
        self.assertEqual(sorted(codes), sorted(texts), "the faults that have a status")
        return {texts[name]: status for name, status in codes.items()}

    def test_statuses(self):
        """docs/OPERATIONS.md has the messages on standard error that end the program, with their statuses: those of all
        commands, and those of `grace serve` alone, which are 3. Two dots stand for what follows the first half of a
        message."""
        sources = source_with("kept by another: {0}"), source_with("room not kept")
        own = [text for source in sources for text in re.findall(r'#\[error\("(.*?)"\)\]', source)]
        expected = {text: 3 for text in own if text != "{0}"} | self.statuses_of_commands()
        filled = {"path": "DIR/ROOM.record", "line": "N"}
        fill = lambda text: re.sub(r"\{(\w+)\}", lambda it: filled.get(it[1], "{0}"), text)
        shorten = lambda line: re.sub(r"^((?:cannot|kept) [a-z ]+): [A-Z]+$", r"\1: {0}", line)
        self.assertEqual(
            sorted({(shorten(line), status) for line, status in lines_of_page().items()}),
            sorted((re.sub("; .*", "; ..", fill(text)), status) for text, status in expected.items()),
        )
