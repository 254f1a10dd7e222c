"""The texts that the program reads as requests, entries and replies, by docs/PROTOCOL.md, and texts that differ from
them in one place."""

import pathlib
import tempfile
import unittest

from lib.scripts import expect_answers
from lib.serving import run, verdict
from lib.worked import RECORD

BAD_MESSAGE = '["no",0,1,"bad-message"]'
NOT_JOINED = '["no",0,2,"not-joined"]'


# ---- requests

NO_REQUESTS = """
["join"
[]
{}
7
"leave"
[leave]
["leave"],
["leave"] ["leave"]
[["leave"]]
["Leave"]
["leaves"]
["leave",1]
{"leave":[]}
["join"]
["join","r","r"]
["join","R"]
["join","a_b"]
["join","é"]
["join",""]
["join",1]
["show"]
["show",1,1]
["show",[1]]
["show",[1,1,1]]
["show",[1,1],1]
["show",[0,1]]
["show",[257,1]]
["show",[1,0]]
["show",[256,16385]]
["show",[-1,1]]
["show",[4294967297,1]]
["show",[1.0,1]]
["show",[1e0,1]]
["show",["1",1]]
["show",{"a":1,"a":2}]
{"show":[1,1]}
"""

NO_CREATIONS = """
["new",1,[],"rect"]
["new",1,[],"rect",[],1]
["new",0,[],"rect",[]]
["new",16385,[],"rect",[]]
["new",1.0,[],"rect",[]]
["new",-0,[],"rect",[]]
["new",1,{},"rect",[]]
["new",1,[[1,0]],"rect",[]]
["new",1,[[1,16385]],"rect",[]]
["new",1,[[257,1]],"rect",[]]
["new",1,[[2,1],[1,1]],"rect",[]]
["new",1,[[1,1],[1,2]],"rect",[]]
["new",1,[],"Rect",[]]
["new",1,[],"",[]]
["new",1,[],"rect",{"x":0}]
["new",1,[],"rect",["x",0]]
["new",1,[],"rect",[["x"]]]
["new",1,[],"rect",[["x",0,0]]]
["new",1,[],"rect",[["X",0]]]
["new",1,[],"rect",[["x",0],["x",1]]]
["new",1,[],"rect",[["x",9223372036854775808]]]
["new",1,[],"rect",[["x",-9223372036854775809]]]
["new",1,[],"rect",[["x",1.0]]]
["new",1,[],"rect",[["x",1e0]]]
["new",1,[],"rect",[["x",-0]]]
["new",1,[],"rect",[["x",1.5]]]
["new",1,[],"rect",[["x",null]]]
["new",1,[],"rect",[["x",true]]]
["new",1,[],"rect",[["x",[]]]]
["new",1,[],"rect",[["x",{}]]]
["new",1,[],[1,1],[],"x",1]
"""

NO_PUTS = """
["put"]
["put",1,[],[1,1],[]]
["put",1,[],[1,1],[],[]]
["put",1,[],[1,1],[],{}]
["put",1,[],[1,1],[],["x",1]]
["put",1,[],[1,1],[],[["x"]]]
["put",1,[],[1,1],[],[["x",1,1]]]
["put",1,[],[1,1],[],[["x",1]],1]
["put",1,[],[1,1],[],[["x",1],["x",1]]]
["put",1,[],[1,1],[],[["y",1],["x",1],["y",2]]]
["put",1,[],[1,1],[],[["x",1],["Y",1]]]
["put",1,[],[1,1],[],[["x",1],["y",1.0]]]
["put",1,[],[1,1],[],[["",1]]]
["put",0,[],[1,1],[],[["x",1]]]
["put",16385,[],[1,1],[],[["x",1]]]
["put",1,[[1,0]],[1,1],[],[["x",1]]]
["put",1,[],[1,0],[],[["x",1]]]
["put",1,[],[1,1],{},[["x",1]]]
["put",1,[],[1,1],[[1,2],[1,1]],[["x",1]]]
["put",1,[],[1,1],[],"x",1]
["set",1,[],[1,1],[],[["x",1]]]
"""

NO_DROPS = """
["drop"]
["drop",1,[],[1,1]]
["drop",1,[],[1,1],[],[]]
["drop",0,[],[1,1],[]]
["drop",1,[[1,0]],[1,1],[]]
["drop",1,[],[1,0],[]]
["drop",1,[],[1,1],{}]
["drop",1,[],[1,1],[[1,2],[1,1]]]
"""

NO_OLD_PUTS = """
["set"]
["set",1,[],[1,1],[],"x"]
["set",1,[],[1,1],[],"x",1,1]
["set",0,[],[1,1],[],"x",1]
["set",16385,[],[1,1],[],"x",1]
["set",1,[[1,0]],[1,1],[],"x",1]
["set",1,[[2,1],[1,1]],[1,1],[],"x",1]
["set",1,[],[1,0],[],"x",1]
["set",1,[],[1,1],{},"x",1]
["set",1,[],[1,1],[1,1],"x",1]
["set",1,[],[1,1],[[0,1]],"x",1]
["set",1,[],[1,1],[[1,2],[1,1]],"x",1]
["set",1,[],[1,1],[[1,2],[1,2]],"x",1]
["set",1,[],[1,1],[],"X",1]
["set",1,[],[1,1],[],"",1]
["set",1,[],[1,1],[],1,"x"]
["set",1,[],[1,1],[],"x",9223372036854775808]
["set",1,[],[1,1],[],"x",1.0]
["set",1,[],[1,1],[],"x",null]
["set",1,[],[1,1],[],"x",[1]]
"""

NO_PAGES = """
["list"]
["list",0,0]
["list",[0]]
["list",-1]
["list",65536]
["list",0.0]
["list",-0]
["list","0"]
["pull"]
["pull",0,0]
["pull",65536]
["pull",null]
["wait"]
["wait",0,0]
["wait",-1]
["wait",65536]
["wait",null]
"""

NO_NOTES = """
["note"]
["note","a","b"]
["note",1]
["note",null]
["note",["a"]]
["notes","a"]
["notes",0]
["notes",null]
["Note","a"]
"""


def rows_of(text):
    """Returns the lines of a text that begins and ends with a line feed."""
    return text.strip("\n").split("\n")


# Texts of a request before and after a part that may be repeated, the most times, and the part.
BOUNDS = [
    ("a message", '["leave"]', 16_375, " ", ""),
    ("a room", '["join","', 64, "z", '"]'),
    ("a kind", '["new",1,[],"', 32, "k", '",[]]'),
    ("a key", '["new",1,[],"rect",[["', 32, "x", '",0]]]'),
    ("a text", '["new",1,[],"rect",[["x","', 256, "a", '"]]]'),
    ("a text of characters of two bytes", '["new",1,[],"rect",[["x","', 128, "é", '"]]]'),
    ("a put's text", '["put",1,[],[1,1],[],[["y",0],["x","', 256, "a", '"]]]'),
    ("a text in the old form", '["set",1,[],[1,1],[],"x","', 256, "a", '"]'),
]


PAIRS = [f'["{number}",0]' for number in range(17)]


class TestRequests(unittest.TestCase):
    def test_no_request(self):
        """These texts are no requests."""
        for name, text in [
            ("of any word", NO_REQUESTS),
            ("creations", NO_CREATIONS),
            ("puts", NO_PUTS),
            ("drops", NO_DROPS),
            ("puts in the old form", NO_OLD_PUTS),
            ("pages", NO_PAGES),
            ("notes", NO_NOTES),
            ("a note that is too long", f'["note","{257 * "a"}"]\n["note","{129 * "é"}"]'),
            ("lists in lists", f'{127 * "["}{127 * "]"}\n{128 * "["}{128 * "]"}'),
        ]:
            with self.subTest(name):
                lines = [f"1 {line}" for line in rows_of(text)]
                expect_answers(["r"], lines, len(lines) * [f"1 {BAD_MESSAGE}"])

    def test_bound(self):
        """A request with this many parts is one, and with one more it is none. The session is in no room, and no room
        has the name."""
        for name, before, most, part, after in BOUNDS:
            with self.subTest(name):
                longest = '["no",0,4,"no-such-room"]' if before.startswith('["join"') else NOT_JOINED
                expect_answers(
                    ["r"],
                    [f"1 {before}{count * part}{after}" for count in (most, most + 1)],
                    [f"1 {longest}", f"1 {BAD_MESSAGE}"],
                )

    def test_attributes(self):
        """A request has at most 16 attributes."""
        for name, form in [("a creation", '["new",1,[],"rect",[{}]]'), ("a put", '["put",1,[],[1,1],[],[{}]]')]:
            with self.subTest(name):
                lines = [f"1 {form.format(','.join(PAIRS[:count]))}" for count in (16, 17)]
                expect_answers(["r"], lines, [f"1 {NOT_JOINED}", f"1 {BAD_MESSAGE}"])


# ---- requests with their entries

# Requests of one client in the room `a-9`, with their replies. Numbers, names and texts are at their bounds, and the
# text has white space and escapes.
WRITTEN = r"""
["jo\u0069n","a-9"] -> ["joined",0,1]
["show",[256,16384]] -> ["no",1,11,"no-such-object"]
["new",16384,[],"rect",[]] -> ["no",1,7,"wrong-seq"]
["new",1,[[1,2],[256,16384]],"rect",[]] -> ["no",1,8,"own-count"]
["put",16384,[[1,1]],[256,16384],[[1,1],[1,2],[2,1]],[["y",1],["x",""]]] -> ["no",1,7,"wrong-seq"]
["list",65535] -> ["no",1,17,"too-far"]
["pull",65535] -> ["no",1,17,"too-far"]
["wait",65535] -> ["no",1,17,"too-far"]
["new",1,[],"rect",[["y",-9223372036854775808],["x",9223372036854775807]]] -> ["made",1,[1,1]]
 [ "put" , 2 , [ [ 1 , 1 ] ] , [ 1 , 1 ] , [ ] , [ [ "x" , "" ] , [ "b" , "\u00e9\u0022" ] ] ] -> ["taken",2,[[]]]
["set", 3, [[1,2]], [1,1], [], "\u0078", -1] -> ["taken",3,[[]]]
["drop",4,[[1,3]],[1,1],[[1,1],[2,1]]] -> ["no",4,12,"no-such-version"]
["drop",	4, [[1,3]], [1,1], []] -> ["taken",4,[[]]]
["show",[1,1]] -> ["versions",5,[1,1],"rect",[[[],"gone"]]]
["pull" , 0] -> ["entries",5,0,[["join",1],["new",[1,1],[],"rect",[["y",-9223372036854775808],["x",9223372036854775807]]],["put",[1,2],[[1,1]],[1,1],[],[["x",""],["b","é\""]]],["put",[1,3],[[1,2]],[1,1],[],[["x",-1]]],["drop",[1,4],[[1,3]],[1,1],[]]]]
["leave"]  -> ["left",5]
"""


class TestRequestsWithTheirEntries(unittest.TestCase):
    def test_written(self):
        """The requests are read as they are meant: the record has their entries in compact form."""
        talk = [row.rsplit(" -> ", 1) for row in rows_of(WRITTEN)]
        expect_answers(["a-9"], [f"1 {request}" for request, _ in talk], [f"1 {reply}" for _, reply in talk])


# ---- entries


# A legal record with the greatest site, and with an entry of each word.
ENTRIES = [
    *(f'["join",{site}]' for site in range(1, 257)),
    '["new",[256,1],[],"rect",[["x",0]]]',
    '["put",[256,2],[[256,1]],[256,1],[],[["y",7],["x",5]]]',
    '["put",[1,1],[[256,1]],[256,1],[],[["x",9]]]',
    '["drop",[1,2],[[1,1],[256,2]],[256,1],[[1,1]]]',
]


# Two sites with an object each. The third line of the first site could be its second operation.
TWO_OBJECTS = ['["join",1]', '["new",[1,1],[],"rect",[]]', '["join",2]', '["new",[2,1],[[1,1]],"rect",[]]']

NEXT_ENTRIES = """
["join",3]
["new",[1,2],[[1,1],[2,1]],"rect",[["x",0]]]
["put",[1,2],[[1,1]],[1,1],[],[["x",5]]]
["set",[1,2],[[1,1]],[1,1],[],"x",5]
["drop",[1,2],[[1,1]],[1,1],[]]
"""

# Each differs from one of these in one place.
NO_ENTRIES = """
[]
["leave"]
["show",[1,1]]
["join"]
["join",0]
["join",257]
["join","r"]
["join",3,3]
["join",3.0]
["new",2,[[1,1]],"rect",[]]
["new",[1,2],[[1,1]],"rect"]
["new",[1,2],[[1,1]],"rect",[],1]
["new",[1,2],[[2,1],[1,1]],"rect",[]]
["new",[1,2],[[1,1]],"Rect",[]]
["new",[1,2],[[1,1]],"rect",[["x",0],["x",1]]]
["put",2,[[1,1]],[1,1],[],[["x",5]]]
["put",[1,2],[[1,1]],[1,1],[],[]]
["put",[1,2],[[1,1]],[1,1],[],["x",5]]
["put",[1,2],[[1,1]],[1,1],[],[["x",5],["x",6]]]
["put",[1,2],[[1,1],[2,0]],[1,1],[],[["x",5]]]
["put",[1,2],[[1,1]],[1,1],[],[["x",5.0]]]
["drop",2,[[1,1]],[1,1],[]]
["drop",[1,2],[[1,1]],[1,1],[],[]]
["drop",[1,2],[[1,1]],[1,1]]
["set",[1,2],[[1,1]],[1,1],[],"x"]
["set",[1,2],[[1,1]],[1,1],[],"x",5,5]
["set",[1,2],[[1,1]],[1,1],[],"x",5.0]
["set",[1,2],[[1,1]],[1,1],[],[["x",5]]]
"""


class TestEntries(unittest.TestCase):
    def migrated(self, lines):
        """Returns the status and output of `grace migrate` for a record of these lines."""
        with tempfile.TemporaryDirectory() as name:
            path = pathlib.Path(name) / "record"
            path.write_text("".join(f"{line}\n" for line in lines))
            status, output, errors = run("migrate", path)
        self.assertEqual(errors, "", "standard error")
        return status, output

    def test_entries(self):
        """Entries are written as they were read. An entry may have a text of any length."""
        text = "".join(f"{line}\n" for line in ENTRIES)
        self.assertEqual(self.migrated(ENTRIES), (0, text), "the entries")
        self.assertEqual(self.migrated([f'["join",1{20_000 * " "}]']), (0, '["join",1]\n'), "a long line")

    def test_no_entries(self):
        """A line that is no entry ends a record, and one in the right form does not."""
        for line in rows_of(NEXT_ENTRIES):
            self.assertEqual(self.migrated([*TWO_OBJECTS, line])[0], 0, f"the status for {line}")
        for line in ["", *rows_of(NO_ENTRIES)]:
            self.assertEqual(self.migrated([*TWO_OBJECTS, line]), (1, "bad record line 5\n"), f"the verdict on {line}")


# ---- replies

# Replies that are not the rules' to a leave after five entries, but in form.
OTHER_REPLIES = """
["made",1,[1,1]]
["taken",3,[]]
["taken",4,[[[1,2]],[[2,1]]]]
["versions",2,[1,1],"rect",[[[],[["x",0]]]]]
["versions",5,[1,1],"rect",[[[[1,2]],[["fill","red"],["x",5]]],[[[2,1]],[]]]]
["versions",5,[1,1],"rect",[[[],"gone"]]]
["objects",5,0,2,[[[1,1],"rect"],[[2,1],"line"]]]
["objects",5,65535,16384,[]]
["entries",5,3,[["join",3],["put",[2,1],[[1,1]],[1,1],[],[["x",9]]]]]
["entries",5,65535,[["set",[1,2],[[1,1]],[1,1],[],"x",5],["drop",[1,2],[[1,1]],[1,1],[]]]]
["notes",5,[]]
["notes",5,[[1,"at 5, 9"],[256,""]]]
["no",5,5,"room-full"]
["no",5,6,"record-full"]
["no",5,7,"wrong-seq"]
["no",5,8,"own-count"]
["no",5,9,"ahead"]
["no",5,10,"not-closed"]
["no",5,11,"no-such-object"]
["no",5,12,"no-such-version"]
["no",5,13,"object-full"]
["no",5,14,"too-many-keys"]
["no",5,15,"too-many-versions"]
["no",5,16,"too-many-objects"]
["no",5,17,"too-far"]
["no",5,18,"gone"]
"""

NO_REPLIES = """
[]
{}
["leave"]
["left"]
["left",5,5]
["left",5.0]
["left","5"]
["made",1]
["made",1,[1,0]]
["made",1,[1,1],1]
["no",5,5]
["no",5,0,"room-full"]
["no",5,22,"room-full"]
["no",5,6,"room-full"]
["no",5,5,"room full"]
["no",5,"room-full",5]
["taken",3]
["taken",3,[1,2]]
["taken",3,[[[2,1]],[[1,2]]]]
["taken",3,[[[1,2]],[[1,2]]]]
["taken",3,[[[1,2]],[]]]
["taken",3,[[[1,2],[1,1]]]]
["versions",5,[1,1],"rect"]
["versions",5,[1,1],"rect",[[[]]]]
["versions",5,[1,1],"rect",[[[],"Gone"]]]
["versions",5,[1,1],"rect",[[[],[["y",0],["x",0]]]]]
["versions",5,[1,1],"rect",[[[],[["x",0],["x",0]]]]]
["versions",5,[1,1],"rect",[[[[2,1]],[]],[[[1,2]],[]]]]
["versions",5,[1,1],"Rect",[]]
["objects",5,0,[]]
["objects",5,65536,1,[]]
["objects",5,0,16385,[]]
["objects",5,0,1,[[[1,1]]]]
["objects",5,0,1,[[[1,1],"rect",1]]]
["entries",5,4]
["entries",5,65536,[]]
["entries",5,4,[["leave"]]]
["entries",5,4,[["join",0]]]
["entries",5,4,["join",1]]
["notes",5]
["notes",5,[[1]]]
["notes",5,[[1,1]]]
["notes",5,[[0,"a"]]]
["notes",5,[[257,"a"]]]
["notes",5,[[1,"a","b"]]]
["notes",5,[[1,"a"],[1,"b"]]]
["notes",5,[[2,"a"],[1,"b"]]]
"""

JOIN = '[1,["join","r"],["joined",0,1]]'


class TestReplies(unittest.TestCase):
    def expect_verdicts(self, lines, line):
        """Expects this verdict on each of these lines as the second line of a transcript."""
        for second in lines:
            status = 0 if line == "holds" else 1
            self.assertEqual(verdict(RECORD, [JOIN, second]), (status, f"{line}\n"), f"the verdict on {second:.100}")

    def test_replies(self):
        """The checker reads replies of each form, of any length, and compares them with the rules'."""
        self.expect_verdicts([f'[1,["leave"],{reply}]' for reply in rows_of(OTHER_REPLIES)], "wrong reply line 2")
        self.expect_verdicts([f'[1,["leave"],["left",5{20_000 * " "}]]', '[2,["join","r"],["joined",2,2]]'], "holds")

    def test_notes(self):
        """A request about notes is no line of a transcript."""
        lines = [
            '[1,["notes"],["notes",5,[]]]', '[1,["note","a"],["notes",5,[[1,"a"]]]]', '[1,["note","a"],["left",5]]',
        ]
        self.expect_verdicts(lines, "bad transcript line 2")

    def test_no_replies(self):
        """A line with no reply is no line of a transcript."""
        self.expect_verdicts([f'[1,["leave"],{reply}]' for reply in rows_of(NO_REPLIES)], "bad transcript line 2")
        joined = ['["joined",2]', '["joined",2,2,2]', '["joined",2.0,2]', '["joined",2,[2]]', '["joined",-2,2]']
        self.expect_verdicts([f'[2,["join","r"],{reply}]' for reply in joined], "bad transcript line 2")
        back = ['["back",5,1]', '["back",5,1,2,2]', '["back",5,1,2.0]', '["back",5,1,-2]']
        self.expect_verdicts([f'[1,["back","r",1],{reply}]' for reply in back], "bad transcript line 2")
