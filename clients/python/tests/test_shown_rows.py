"""The worked examples of `tests/lib/rows.py`: a `Drawing` must compute the versions that the replies have."""

import json
import unittest

from grace import Drawing, Refused, operation_of
from grace.forms import CODES, frozen
from lib.rows import ROWS, lines_of, rooms_of

ROWS_OF_ONE_ROOM = [(name, rows) for name, rows in ROWS if rooms_of(rows) == ["r"] and '"taken"' in rows]
# The refusals that a drawing decides itself.
OWN = ["no-such-object", "no-such-version", "gone"]


def entry_of_request(request, site):
    """Returns the entry that an accepted request adds."""
    word, number, seen, *rest = request
    return word, (site, number), seen, *rest


def shown(drawing, name):
    """Returns the versions of an object in the form of a reply."""
    return tuple(
        (version.id, "gone" if version.is_gone else tuple(version.attributes.items()))
        for version in drawing.versions(name)
    )


class TestShownRows(unittest.TestCase):
    def follow(self, drawing, site, request, reply):
        """Applies a request and its reply to the drawing, and compares."""
        match reply:
            case ("made" | "taken", _, _):
                operation = operation_of(entry_of_request(request, site))
                drawing.add(operation)
                if reply[0] == "taken":
                    self.assertEqual(
                        tuple(it.id for it in drawing.versions(operation.object)), reply[2], "the identifiers",
                    )
            case ("versions", _, name, kind, versions):
                self.assertEqual((drawing.kind(name), shown(drawing, name)), (kind, versions), "what is shown")
            case ("no", _, _, word) if word in OWN and request[0] != "show":
                self.expect_refusal(drawing, operation_of(entry_of_request(request, site)), word)

    def expect_refusal(self, drawing, change, word):
        """Expects that the drawing refuses a change with this word, and does not change."""
        before = [shown(drawing, name) for name in drawing.names()]
        try:
            drawing.add(change)
            self.fail(f"{change} is taken")
        except Refused as refusal:
            self.assertEqual((refusal.word, refusal.code), (word, CODES[word]), "the refusal")
        self.assertEqual([shown(drawing, name) for name in drawing.names()], before, "what is shown then")

    def test_rows(self):
        """Checks the example of one room."""
        for name, rows in ROWS_OF_ONE_ROOM:
            with self.subTest(name):
                sites = {}
                drawing = Drawing()
                for client, request, reply in lines_of(rows):
                    reply = frozen(json.loads(reply))
                    if reply[0] in ("joined", "back"):
                        sites[client] = reply[2]
                    if reply[0] in ("made", "taken", "versions") or reply[0] == "no" and reply[2] > 10:
                        self.follow(drawing, sites.get(client), frozen(json.loads(request)), reply)

    def test_what_outlived_a_drop(self):
        """A version outlives a drop whose author deleted it in an earlier state, and no other drop."""
        made = ("new", (1, 1), (), "rect", (("x", 0),))
        x5 = ("put", (1, 2), ((1, 1),), (1, 1), (), (("x", 5),))
        x9 = ("put", (2, 1), ((1, 1),), (1, 1), (), (("x", 9),))
        drop = ("drop", (2, 1), ((1, 2),), (1, 1), ())
        x6 = ("put", (1, 3), ((1, 2),), (1, 1), (), (("x", 6),))
        one_of_two = ("drop", (1, 3), ((1, 2), (2, 1)), (1, 1), ((1, 2),))
        for name, changes, expected in [
            ("changed in the meantime", [x5, drop, x6], [((2, 1),), ()]),
            ("one of two that were seen", [x5, x9, one_of_two], [(), ()]),
        ]:
            drawing = Drawing()
            for entry in (made, *changes):
                drawing.add(operation_of(entry))
            self.assertEqual([version.outlived for version in drawing.versions((1, 1))], expected, name)
