"""The checker's verdicts on worked records and transcripts with a line changed, and on rooms that answered scripts."""

import json
import pathlib
import tempfile
import unittest

from lib.checks import check
from lib.serving import run, verdict
from lib.worked import RECORD

TRANSCRIPT = [
    '[1,["join","r"],["joined",0,1]]',
    '[1,["new",1,[],"rect",[["x",0]]],["made",1,[1,1]]]',
    '[2,["join","r"],["joined",2,2]]',
    '[1,["put",2,[[1,1]],[1,1],[],[["x",5]]],["taken",3,[[]]]]',
    '[2,["put",1,[[1,1]],[1,1],[],[["x",9]]],["taken",4,[[[1,2]],[[2,1]]]]]',
    '[1,["show",[1,1]],["versions",5,[1,1],"rect",[[[[1,2]],[["x",5]]],[[[2,1]],[["x",9]]]]]]',
]

# A change's name, the number of the changed line of the record or transcript, its new text, and the verdict.
OTHER_ENTRIES = [
    ("a missing entry", 2, None, "bad record line 3"),
    ("a missing last entry", 5, None, "wrong reply line 5"),
    ("a join of another site than the next", 3, '["join",3]', "bad record line 3"),
    ("an empty line of the record", 4, "", "bad record line 4"),
]
OTHER_LINES = [
    ("another value shown", 6,
     '[1,["show",[1,1]],["versions",5,[1,1],"rect",[[[[1,2]],[["x",5]]],[[[2,1]],[["x",8]]]]]]',
     "wrong reply line 6"),
    ("a place beyond the record", 5,
     '[2,["put",1,[[1,1]],[1,1],[],[["x",9]]],["taken",9,[[[1,2]],[[2,1]]]]]', "bad transcript line 5"),
    ("a time before the last one", 6,
     '[1,["show",[1,1]],["versions",2,[1,1],"rect",[[[[1,2]],[["x",5]]],[[[2,1]],[["x",9]]]]]]',
     "bad transcript line 6"),
    ("a line that is not in the form", 2, "[]", "bad transcript line 2"),
    ("a join that was refused", 3, '[2,["join","r"],["no",2,5,"room-full"]]', "bad transcript line 3"),
    ("a refusal outside the room", 6, '[1,["leave"],["no",5,2,"not-joined"]]', "bad transcript line 6"),
    ("a site that joined later", 3, '[2,["leave"],["left",2]]', "bad transcript line 3"),
    ("no further than the entry that the site added", 3, '[1,["leave"],["left",1]]', "bad transcript line 3"),
    ("a place of an earlier reply", 6,
     '[1,["put",3,[[1,2]],[1,1],[],[["y",1]]],["taken",4,[[]]]]', "bad transcript line 6"),
    ("a join by another site", 3, '[3,["join","r"],["joined",2,2]]', "wrong reply line 3"),
    ("another request than the entry's", 4,
     '[1,["put",2,[[1,1]],[1,1],[],[["x",6]]],["taken",3,[[]]]]', "wrong reply line 4"),
    ("the time of another page", 6, '[1,["list",0],["objects",4,0,1,[[[1,1],"rect"]]]]', "holds"),
    ("a page that lacks an object", 6, '[1,["list",0],["objects",4,0,1,[]]]', "wrong reply line 6"),
]


def with_line_replaced(lines, number, other):
    """Returns the lines with the one of this number replaced, or removed."""
    return [*lines[: number - 1], *([] if other is None else [other]), *lines[number:]]


def expect_verdict(record, transcript, line):
    """Expects this verdict."""
    check.assertEqual(verdict(record, transcript), (0 if line == "holds" else 1, f"{line}\n"), "the verdict")


# The lines after the join of site 1 in a transcript, and the verdict.
LEFT = '[1,["leave"],["left",5]]'
AFTER_JOIN = [
    (LEFT, "holds"),
    (' [ 1 , ["leave"] , ["left",5] ] ', "holds"),
    ('[1,["leave"],["left",1]]', "holds"),
    ('[2,["leave"],["left",5]]', "holds"),
    ('[1,["leave"],["left",2]]\n[1,["leave"],["left",2]]', "holds"),
    ('[1,["leave"],["no",5,5,"room-full"]]', "wrong reply line 2"),
    ('[1,["leave"],["made",1,[1,1]]]', "wrong reply line 2"),
    ('[1,["leave"],["made",5,[1,1]]]', "wrong reply line 2"),
    ('[2,["join","r"],["joined",1,2]]', "wrong reply line 2"),
    ("[]", "bad transcript line 2"),
    ('[0,["leave"],["left",5]]', "bad transcript line 2"),
    ('[257,["leave"],["left",5]]', "bad transcript line 2"),
    ('[1,["leave"]]', "bad transcript line 2"),
    ('[1,["leave"],["left",5],0]', "bad transcript line 2"),
    (f"{LEFT}x", "bad transcript line 2"),
    (f"{LEFT} {LEFT}", "bad transcript line 2"),
    ('{"site":1}', "bad transcript line 2"),
    ('[1,["join","r"],["left",5]]', "bad transcript line 2"),
    ('[1,["join","r"],["no",5,5,"room-full"]]', "bad transcript line 2"),
    ('[1,["leave"],["no",5,1,"bad-message"]]', "bad transcript line 2"),
    ('[1,["leave"],["no",5,2,"not-joined"]]', "bad transcript line 2"),
    ('[1,["leave"],["no",5,3,"already-joined"]]', "bad transcript line 2"),
    ('[1,["leave"],["no",5,4,"no-such-room"]]', "bad transcript line 2"),
    ('[2,["join","r"],["joined",0,2]]', "bad transcript line 2"),
    ('[1,["leave"],["left",0]]', "bad transcript line 2"),
    ('[1,["leave"],["left",6]]', "bad transcript line 2"),
    ('[1,["leave"],["made",6,[1,1]]]', "bad transcript line 2"),
    ('[1,["leave"],["left",3]]\n[1,["leave"],["left",2]]', "bad transcript line 3"),
]

# The lines after the join of site 1 with a coming back, and the verdict. Over the record's first 1, 2, 4 and 5 entries,
# site 1 has made 0, 1, 2 and 2 operations. Site 2 joins third, and makes its only operation with the fifth entry.
BACK = '[1,["back","r",1],["back",5,1,2]]'
BACKS = [
    (BACK, "holds"),
    ('[1,["back","zz",1],["back",1,1,0]]', "holds"),
    ('[1,["back","r",1],["back",2,1,1]]', "holds"),
    ('[2,["back","r",2],["back",4,2,0]]', "holds"),
    ('[2,["back","r",2],["back",5,2,1]]', "holds"),
    (f"{BACK}\n{BACK}", "holds"),
    ('[1,["back","r",1],["back",1,1,0]]\n[1,["new",1,[],"rect",[["x",0]]],["made",1,[1,1]]]', "holds"),
    (f'[1,["new",1,[],"rect",[["x",0]]],["made",1,[1,1]]]\n[1,["back","r",1],["back",2,1,1]]\n{LEFT}', "holds"),
    ('[1,["back","r",1],["back",5,1,1]]', "wrong reply line 2"),
    ('[1,["back","r",1],["back",5,1,3]]', "wrong reply line 2"),
    ('[1,["back","r",1],["back",3,1,2]]', "wrong reply line 2"),
    ('[2,["back","r",2],["back",4,2,1]]', "wrong reply line 2"),
    ('[1,["back","r",1],["back",5,2,2]]', "wrong reply line 2"),
    ('[2,["back","r",2],["back",2,2,0]]', "bad transcript line 2"),
    ('[3,["back","r",3],["back",5,3,0]]', "bad transcript line 2"),
    ('[1,["back","r",1],["back",0,1,0]]', "bad transcript line 2"),
    ('[1,["back","r",1],["back",6,1,2]]', "bad transcript line 2"),
    (f'{BACK}\n[1,["leave"],["left",4]]', "bad transcript line 3"),
    (f'{LEFT}\n[1,["back","r",1],["back",4,1,2]]', "bad transcript line 3"),
    ('[1,["new",1,[],"rect",[["x",0]]],["made",1,[1,1]]]\n[1,["back","r",1],["back",1,1,0]]', "bad transcript line 3"),
    ('[1,["back","r",2],["back",5,2,1]]', "bad transcript line 2"),
    ('[1,["back","r",2],["back",5,1,2]]', "bad transcript line 2"),
    ('[1,["back","r",1],["joined",0,1]]', "bad transcript line 2"),
    ('[1,["back","r",1],["left",5]]', "bad transcript line 2"),
    ('[1,["join","r"],["back",5,1,2]]', "bad transcript line 2"),
    ('[1,["leave"],["back",5,1,2]]', "bad transcript line 2"),
    ('[1,["back","r",1],["no",0,3,"already-joined"]]', "bad transcript line 2"),
    ('[1,["back","r",1],["no",5,19,"no-such-site"]]', "bad transcript line 2"),
    ('[1,["back","r",1],["no",5,20,"site-in-use"]]', "bad transcript line 2"),
    ('[1,["leave"],["no",5,19,"no-such-site"]]', "bad transcript line 2"),
    ('[1,["leave"],["no",5,20,"site-in-use"]]', "bad transcript line 2"),
]


def join_lines(lines, end):
    """Returns the lines, each followed by this end."""
    return "".join(line + end for line in lines)


# The texts of a record and of a transcript, and the verdict.
WHOLE = join_lines(RECORD, "\n"), join_lines(TRANSCRIPT, "\n")
FILES = [
    ("empty files", "", "", "holds"),
    ("no transcript", WHOLE[0], "", "holds"),
    ("last lines without a line feed", WHOLE[0].strip(), WHOLE[1].strip(), "holds"),
    ("no record", "", WHOLE[1], "wrong reply line 1"),
    ("an empty first entry", "\n", "", "bad record line 1"),
    ("an empty first line", "", "\n", "bad transcript line 1"),
    ("lines with carriage returns", join_lines(RECORD, "\r\n"), join_lines(TRANSCRIPT, "\r\n"), "holds"),
    ("empty lines between entries", join_lines(RECORD, "\n\n"), "", "bad record line 2"),
]


class TestVerdicts(unittest.TestCase):
    def test_other_entry(self):
        """The verdict after an entry is replaced or removed."""
        for name, number, other, line in OTHER_ENTRIES:
            with self.subTest(f"{name}: {line}"):
                expect_verdict(with_line_replaced(RECORD, number, other), TRANSCRIPT, line)

    def test_other_line(self):
        """The verdict after a line of the transcript is replaced."""
        for name, number, other, line in OTHER_LINES:
            with self.subTest(f"{name}: {line}"):
                expect_verdict(RECORD, with_line_replaced(TRANSCRIPT, number, other), line)

    def test_after_a_join(self):
        """The verdict if these lines follow the join of site 1."""
        for lines, line in [*AFTER_JOIN, *BACKS]:
            with self.subTest(f"{lines!r}: {line}"):
                expect_verdict(RECORD, [TRANSCRIPT[0], *lines.split("\n")], line)

    def test_files(self):
        """The verdict on files with these texts."""
        for name, record, transcript, line in FILES:
            with self.subTest(f"{name}: {line}"):
                with tempfile.TemporaryDirectory() as folder:
                    paths = [pathlib.Path(folder) / "record", pathlib.Path(folder) / "transcript"]
                    for path, text in zip(paths, (record, transcript)):
                        path.write_bytes(text.encode())
                    result = run("check", *paths)
                self.assertEqual(result, (0 if line == "holds" else 1, f"{line}\n", ""), "the end")

    def test_true_transcript(self):
        """The checker accepts a true transcript."""
        expect_verdict(RECORD, TRANSCRIPT, "holds")

    def test_no_files(self):
        """The checker reports files that do not exist."""
        self.assertEqual(run("check", "no/record", "no/transcript"), (3, "", "grace: input failed\n"), "the end")


# ---- rooms that answered scripts


def joins(sites):
    """Returns the joins of this many sites."""
    return [(site, '["join","r"]') for site in range(1, sites + 1)]


# A site, its request, and the code of the refusal, or 0.
REQUESTS = [
    (1, '["new",1,[],"rect",[["x",0]]]', 0),
    (2, '["put",1,[[1,1]],[1,1],[],[["x",9]]]', 0),
    (1, '["put",3,[[1,1]],[1,1],[],[["x",5]]]', 7),
    (1, '["put",2,[[1,2]],[1,1],[],[["x",5]]]', 8),
    (1, '["put",2,[[1,1],[2,2]],[1,1],[],[["x",5]]]', 9),
    (3, '["put",1,[[2,1]],[1,1],[],[["x",5]]]', 10),
    (1, '["put",2,[[1,1]],[2,9],[],[["x",5]]]', 11),
    (1, '["put",2,[[1,1]],[1,1],[[2,1]],[["x",5]]]', 12),
    (1, '["put",2,[[1,1]],[1,1],[],[["x","five"]]]', 0),
    (3, '["new",1,[[1,2],[2,1]],"line",[]]', 0),
    (3, '["show",[1,1]]', 0),
    (3, '["show",[2,9]]', 11),
    (3, '["list",0]', 0),
    (3, '["list",3]', 17),
    (3, '["pull",2]', 0),
    (3, '["pull",99]', 17),
    (3, '["wait",7]', 0),
    (3, '["wait",99]', 17),
    (3, '["put",2,[[1,2],[2,1],[3,1]],[1,1],[[2,1]],[["x",3],["y",4]]]', 0),
    (3, '["drop",3,[[1,2],[2,1],[3,2]],[1,1],[[1,2]]]', 0),
    (3, '["put",4,[[1,2],[2,1],[3,3]],[1,1],[[1,2],[3,3]],[["x",1]]]', 18),
    (3, '["set",4,[[1,2],[2,1],[3,3]],[1,1],[[2,1],[3,2]],"x",1]', 0),
    (3, '["show",[1,1]]', 0),
    (3, '["leave"]', 0),
    (3, '["back","r",3]', 0),
    (3, '["show",[1,1]]', 0),
    (3, '["leave"]', 0),
]


def own_request(word, seq, rest):
    """Returns the first site's request for its operation of this number. Its state vector has only its own
    operations."""
    seen = f"[[1,{seq - 1}]]" if seq > 1 else "[]"
    return 1, f'["{word}",{seq},{seen},{rest}]'


class TestRoomsThatAnsweredScripts(unittest.TestCase):
    def expect_holds(self, requests, codes):
        """Sends these requests, pairs of a site and a text, and expects these codes of refusals, 0 for none. The
        checker must accept the record and the transcript. Sites join in the order of their numbers, so a session's
        number is its site's; the first site stays to read the record."""
        pulls = [f'1 ["pull",{place}]' for place in range(0, codes.count(0) + 1, 64)]
        lines = [*(f"{site} {request}" for site, request in requests), *pulls]
        status, output, errors = run("script", "r", stdin="\n".join(lines).encode())
        self.assertEqual((status, errors), (0, ""), "the script's end")
        replies = [line.split(" ", 1)[1] for line in output.splitlines()]
        values = [json.loads(reply) for reply in replies]
        self.assertEqual(
            [reply[2] if reply[0] == "no" else 0 for reply in values[: len(requests)]], codes, "the refusals",
        )
        record = [entry for reply in values[len(requests) :] if reply[0] == "entries" for entry in reply[3]]
        transcript = [f"[{site},{request},{reply}]" for (site, request), reply in zip(requests, replies)]
        expect_verdict([json.dumps(entry, separators=(",", ":")) for entry in record], transcript, "holds")

    def test_each_request(self):
        """Each request, and each refusal of it that a site in a room can get."""
        self.expect_holds([*joins(3), *(row[:2] for row in REQUESTS)], [0, 0, 0, *(row[2] for row in REQUESTS)])

    def test_many_versions(self):
        """The most versions of an object, and a put that would create more."""
        changes = [(site, f'["put",{2 if site == 1 else 1},[[1,1]],[1,1],[],[["{key}",{1 + (site - 1) % 2}]]]')
                for site, key in enumerate("aabbccddeeff", 1)]
        requests = [*joins(12), own_request("new", 1, '"rect",[]'), *changes, (12, '["show",[1,1]]')]
        self.expect_holds(requests, 13 * [0] + 11 * [0] + [15, 0])

    def test_many_keys(self):
        """The most keys of an object, and one more."""
        changes = [own_request("put", key + 1, f'[1,1],[],[["k{key}",1]]') for key in range(1, 66)]
        self.expect_holds([*joins(1), own_request("new", 1, '"rect",[]'), *changes], 66 * [0] + [14])

    def test_many_objects(self):
        """The most objects of a room and the most changes of an object, and one more of each."""
        creations = [own_request("new", seq, '"rect",[]') for seq in range(1, 8194)]
        changes = [own_request("put", 8192 + number, '[1,1],[],[["x",1]]') for number in range(1, 1026)]
        self.expect_holds([*joins(1), *creations, *changes], 8193 * [0] + [16] + 1024 * [0] + [13])

    def test_many_entries(self):
        """The most entries of a record, and one more."""
        creations = [own_request("new", seq, '"rect",[]') for seq in range(1, 33)]
        changes = [own_request("put", seq, f'[1,{1 + seq % 32}],[],[["x",{seq}]]') for seq in range(33, 16_385)]
        self.expect_holds([*joins(1), *creations, *changes], 16_384 * [0] + [6])
