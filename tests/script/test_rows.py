"""The worked examples and invalid lines, as scripts."""

import unittest

from lib.rows import ROWS_OF_SCRIPTS, lines_of, rooms_of
from lib.scripts import expect_answers
from lib.serving import run


# Lines of a script, each followed by its answer.
OTHER_LINES = """x ["leave"]
?
01 ["leave"]
?
7
?

?
4294967296 ["leave"]
?
7\x20
7 ["no",0,1,"bad-message"]
4294967295 ["leave"]
4294967295 ["no",0,2,"not-joined"]"""


class TestScripts(unittest.TestCase):
    def test_rows(self):
        """The answers of a script are the replies of the worked example."""
        for name, rows in ROWS_OF_SCRIPTS:
            with self.subTest(name):
                lines = list(lines_of(rows))
                expect_answers(
                    rooms_of(rows),
                    [f"{client} {request}" for client, request, _ in lines],
                    [f"{client} {reply}" for client, _, reply in lines],
                )

    def test_other_lines(self):
        """The answer to an invalid line is a question mark. The script continues."""
        lines = OTHER_LINES.split("\n")
        expect_answers(["r"], lines[::2], lines[1::2])

    def test_no_last_break(self):
        """The last line needs no line feed, and a script may be empty."""
        self.assertEqual(run("script", "r", stdin=b'0 ["leave"]'), (0, '0 ["no",0,2,"not-joined"]\n', ""), "the answer")
        self.assertEqual(run("script", "r"), (0, "", ""), "the answer to nothing")

    def test_no_utf8(self):
        """Bytes that are not UTF-8 are not a request."""
        result = run("script", "r", stdin=b'1 \xff\n1 ["join","\xc3"]\n1 ["new",1,[],"rect",[["x","\xff"]]]\n')
        self.assertEqual(result, (0, '1 ["no",0,1,"bad-message"]\n' * 3, ""), "the answers")

    def test_long_lines(self):
        """A request has at most 16,384 bytes."""
        leave, bad = '1 ["leave"]', '1 ["no",0,1,"bad-message"]'
        expect_answers(
            ["r"],
            ['1 ["join","r"]', leave + 16_376 * " ", leave + 10**6 * " ", leave + 16_375 * " "],
            ['1 ["joined",0,1]', bad, bad, '1 ["left",1]'],
        )
