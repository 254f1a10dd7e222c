"""Records that have ended: `["next",COUNT]`, and the refusal of all that would come after it."""

import pathlib
import tempfile
import unittest

from lib.serving import run, verdict
from lib.worked import RECORD

END = '["next",2]'
ENDED = [*RECORD, END]
AFTER = len(RECORD) + 2

# The lines of a record, and the first of them that is no entry or may not come next; None if the record is legal.
RECORDS = [
    ("a record that has ended", ENDED, None),
    ("an empty record that has ended", ['["next",0]'], None),
    ("the greatest count", [*RECORD, '["next",16384]'], None),
    ("a count above that", [*RECORD, '["next",16385]'], len(RECORD) + 1),
    ("a count below 0", ['["next",-1]'], 1),
    ("no count", ['["next"]'], 1),
    ("two counts", ['["next",1,2]'], 1),
    ("a second end", [*ENDED, END], AFTER),
    ("a join after the end", [*ENDED, '["join",3]'], AFTER),
    ("a creation after the end", [*ENDED, '["new",[2,2],[[2,1]],"rect",[]]'], AFTER),
    ("a put after the end", [*ENDED, '["put",[2,2],[[1,1],[2,1]],[1,1],[],[["x",1]]]'], AFTER),
    ("a drop after the end", [*ENDED, '["drop",[2,2],[[1,1],[2,1]],[1,1],[]]'], AFTER),
]

# A line of a transcript of the record that has ended, and the verdict.
REPLIES = [
    ("a put that is refused", '[2,["put",2,[[1,1],[2,1]],[1,1],[],[["x",1]]],["no",6,22,"renewed"]]', "holds"),
    ("a drop that is refused", '[2,["drop",2,[[1,1],[2,1]],[1,1],[]],["no",6,22,"renewed"]]', "holds"),
    ("a creation that is refused", '[2,["new",2,[[2,1]],"rect",[]],["no",6,22,"renewed"]]', "holds"),
    ("before another refusal", '[2,["new",9,[],"rect",[]],["no",6,22,"renewed"]]', "holds"),
    ("another refusal before it", '[2,["new",9,[],"rect",[]],["no",6,7,"wrong-seq"]]', "wrong reply line 1"),
    ("before the end", '[2,["new",2,[[2,1]],"rect",[]],["no",5,22,"renewed"]]', "wrong reply line 1"),
    ("a page with the end", f'[1,["pull",5],["entries",6,5,[{END}]]]', "holds"),
    ("a page without it", '[1,["pull",5],["entries",6,5,[]]]', "wrong reply line 1"),
    ("a show", '[1,["show",[1,1]],["versions",6,[1,1],"rect",[[[[1,2]],[["x",5]]],[[[2,1]],[["x",9]]]]]]', "holds"),
    ("a list", '[1,["list",0],["objects",6,0,1,[[[1,1],"rect"]]]]', "holds"),
    ("a leave", '[1,["leave"],["left",6]]', "holds"),
]


class TestEndedRecords(unittest.TestCase):
    def test_record(self):
        """`grace migrate` prints a legal record as it is, and otherwise reports its first bad line."""
        for name, record, bad in RECORDS:
            with self.subTest(name):
                self.check_record(record, bad)

    def check_record(self, record, bad):
        """Expects that this is the first bad line of a record, or that it has none."""
        with tempfile.TemporaryDirectory() as name:
            path = pathlib.Path(name) / "record"
            path.write_text("".join(f"{line}\n" for line in record))
            result = run("migrate", path)
        lines = record if bad is None else [f"bad record line {bad}"]
        self.assertEqual(result, (0 if bad is None else 1, "".join(f"{line}\n" for line in lines), ""), "the end")

    def test_reply(self):
        """The checker's verdict on a reply of the room that has ended."""
        for name, line, found in REPLIES:
            with self.subTest(name):
                self.assertEqual(verdict(ENDED, [line]), (0 if found == "holds" else 1, f"{found}\n"), "the verdict")

    def test_request(self):
        """No request ends a record."""
        lines = ['1 ["join","r"]', f"1 {END}"]
        result = run("script", "r", stdin="".join(f"{line}\n" for line in lines).encode())
        self.assertEqual(result, (0, '1 ["joined",0,1]\n1 ["no",0,1,"bad-message"]\n', ""), "the replies")

    def test_renewal(self):
        """The renewal of a record that has ended draws the same, and has not ended."""
        with tempfile.TemporaryDirectory() as name:
            old, new = pathlib.Path(name) / "old", pathlib.Path(name) / "new"
            old.write_text("".join(f"{line}\n" for line in ENDED))
            status, output, _ = run("renew", old)
            new.write_text(output)
            self.assertEqual(status, 0, "the end")
            self.assertEqual([line for line in output.splitlines() if "next" in line], [], "the ends")
            self.assertEqual(run("renewed", old, new), (0, "holds\n", ""), "the comparison")
