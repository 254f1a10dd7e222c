"""Records in old forms: the checker accepts them, and `grace migrate` rewrites them."""

import pathlib
import tempfile
import unittest

from lib.serving import run, verdict
from lib.worked import RECORD

OLD_RECORD = [
    *RECORD[:3],
    '["set",[1,2],[[1,1]],[1,1],[],"x",5]',
    '["set",[2,1],[[1,1]],[1,1],[],"x",9]',
]
OLD_TRANSCRIPT = [
    '[1,["join","r"],["joined",0,1]]',
    '[1,["new",1,[],"rect",[["x",0]]],["made",1,[1,1]]]',
    '[2,["join","r"],["joined",2,2]]',
    '[1,["set",2,[[1,1]],[1,1],[],"x",5],["taken",3,[[]]]]',
    '[2,["set",1,[[1,1]],[1,1],[],"x",9],["taken",4,[[[1,2]],[[2,1]]]]]',
    '[1,["pull",3],["entries",5,3,[["set",[1,2],[[1,1]],[1,1],[],"x",5],["set",[2,1],[[1,1]],[1,1],[],"x",9]]]]',
]

# The lines of a record, and the status and output of `grace migrate`.
RECORDS = [
    ("a record in old forms", OLD_RECORD, 0, RECORD),
    ("a record in current forms", RECORD, 0, RECORD),
    ("a record with white space", [' [ "join" , 1 ] '], 0, ['["join",1]']),
    ("no entries", [], 0, []),
    ("a repeated entry", [*OLD_RECORD, OLD_RECORD[-1]], 1, ["bad record line 6"]),
    ("a line that is not an entry", ['["join",1]', '["put",[1,1],[],[1,1],[],[]]'], 1, ["bad record line 2"]),
]


class TestMigration(unittest.TestCase):
    def test_migrated(self):
        """The output of `grace migrate` for this record."""
        for name, record, status, lines in RECORDS:
            with self.subTest(name):
                with tempfile.TemporaryDirectory() as folder:
                    path = pathlib.Path(folder) / "record"
                    path.write_text("".join(f"{line}\n" for line in record))
                    result = run("migrate", path)
                self.assertEqual(result, (status, "".join(f"{line}\n" for line in lines), ""), "the end")

    def test_no_file(self):
        """`grace migrate` reports a file that does not exist."""
        self.assertEqual(run("migrate", "no/record"), (3, "", "grace: input failed\n"), "the end")

    def test_old_transcript(self):
        """The checker accepts a transcript in old forms with a record in old or current forms."""
        for name, record, transcript in [
            ("an old record", OLD_RECORD, OLD_TRANSCRIPT),
            ("a record in current forms", RECORD, OLD_TRANSCRIPT),
        ]:
            with self.subTest(name):
                self.assertEqual(verdict(record, transcript), (0, "holds\n"), "the verdict")
