"""`grace renew` gives a short record that draws the same, and `grace renewed` compares what two records draw."""

import itertools
import json
import pathlib
import subprocess
import tempfile
import unittest

from lib import serving
from lib.checks import check
from lib.drawing import Drawer, draw_in_rounds
from lib.limit_records import AT_LIMITS, LONGER, MAX_ENTRIES, MAX_OBJECTS, full
from lib.records import compact
from lib.serving import run
from lib.worked import RECORD

PAGE = 64


def lines_of(record):
    """Returns the lines of a record's entries."""
    return [compact(entry) for entry in record.entries]


def run_on(word, *records):
    """Runs a command on records, each a list of lines. Returns its status and output."""
    with tempfile.TemporaryDirectory() as name:
        files = [pathlib.Path(name) / str(number) for number in range(len(records))]
        for file, lines in zip(files, records):
            file.write_text("".join(f"{line}\n" for line in lines))
        status, output, errors = run(word, *files)
    check.assertEqual(errors, "", "standard error")
    return status, output


def renewal_of(record):
    """Renews a record. Expects that the new one is legal, draws the same and is no longer, and that it is renewed to
    itself. Returns its lines."""
    status, output = run_on("renew", record)
    check.assertEqual(status, 0, "the status")
    new = output.splitlines()
    check.assertEqual(run_on("renewed", record, new), (0, "holds\n"), "the comparison")
    check.assertEqual(run_on("check", new, []), (0, "holds\n"), "the verdict")
    check.assertEqual(run_on("renew", new), (0, output), "renewed twice")
    check.assertLessEqual(len(new), len(record), "whether it is no longer")
    return new


class TestRenewals(unittest.TestCase):
    def test_at_limits(self):
        """A record whose object has as many keys or versions as the limits allow, or versions that agree."""
        for name, record_of in AT_LIMITS:
            with self.subTest(name):
                renewal_of(lines_of(record_of()))

    def test_longer(self):
        """A record is not renewed to a longer one."""
        for name, record_of in LONGER:
            with self.subTest(name):
                record = lines_of(record_of())
                self.assertEqual(run_on("renew", record), (1, "cannot renew\n"), "the end")
                self.assertEqual(run_on("renewed", record, record), (0, "holds\n"), "the comparison with itself")

    def test_full(self):
        """A full record is renewed to a join of each site, a creation of each object, and a put of each of its versions
        if it has several."""
        for name, objects, sites, length in [
            ("512 objects", 512, 1, 513),
            ("512 objects of two versions", 512, 2, 2 + 3 * 512),
            ("8,192 objects", MAX_OBJECTS, 1, MAX_OBJECTS + 1),
        ]:
            with self.subTest(name):
                record = lines_of(full(objects, sites))
                self.assertEqual((len(record), len(renewal_of(record))), (MAX_ENTRIES, length), "the length")


# ---- what is drawn

EXCHANGED = [*RECORD[:3], RECORD[3].replace('"x",5', '"x",9'), RECORD[4].replace('"x",9', '"x",5')]
OTHERS = [
    ("another value", [*RECORD[:4], RECORD[4].replace("9", "8")]),
    ("another kind", [line.replace("rect", "oval") for line in RECORD]),
    ("exchanged versions", EXCHANGED),
    ("one version less", RECORD[:4]),
    ("one object more", [*RECORD, '["new",[2,2],[[1,1],[2,1]],"rect",[]]']),
    ("no object", RECORD[:1]),
    ("no entries", []),
]


class TestDrawings(unittest.TestCase):
    def test_another_drawing(self):
        """Records that draw something different, compared both ways."""
        for name, new in OTHERS:
            with self.subTest(name):
                self.assertEqual(run_on("renewed", RECORD, new), (1, "differs\n"), "the comparison")
                self.assertEqual(run_on("renewed", new, RECORD), (1, "differs\n"), "the other way")

    def test_same_drawing(self):
        """A record draws the same with an object whose versions are all gone, and with other names of objects."""
        dropped = [*RECORD, '["new",[1,3],[[1,2]],"oval",[]]', '["drop",[1,4],[[1,3]],[1,3],[]]']
        self.assertEqual(run_on("renewed", RECORD, dropped), (0, "holds\n"), "an object that is gone")
        renamed = ['["join",1]', '["join",2]', '["new",[2,1],[],"rect",[["x",9]]]']
        one_object = ['["join",1]', '["new",[1,1],[],"rect",[["x",9]]]']
        self.assertEqual(run_on("renewed", one_object, renamed), (0, "holds\n"), "another name")


# ---- bad input

BAD_LINE = ["not an entry"]


class TestBadInput(unittest.TestCase):
    def test_bad_record(self):
        """`grace renew` and `grace renewed` tell the first bad line of the record."""
        for name, records, line in [
            ("a bad line", [RECORD + BAD_LINE], "bad record line 6\n"),
            ("an entry that may not come next", [["[\"join\",2]"]], "bad record line 1\n"),
            ("an empty line", [["", *RECORD]], "bad record line 1\n"),
        ]:
            with self.subTest(name):
                self.assertEqual(run_on("renew", *records), (1, line), "renew")
                self.assertEqual(run_on("renewed", *records, BAD_LINE), (1, line), "renewed")

    def test_bad_new_record(self):
        """`grace renewed` tells the first bad line of the new record if the old one is legal."""
        self.assertEqual(run_on("renewed", RECORD, [*RECORD, RECORD[-1]]), (1, "bad new record line 6\n"), "renewed")

    def test_no_entries(self):
        """The renewed record of no entries, or of none but joins, has none."""
        self.assertEqual(run_on("renew", []), (0, ""), "no entries")
        self.assertEqual(run_on("renew", ['["join",1]', '["join",2]']), (0, ""), "joins")

    def test_no_file(self):
        """A file that does not exist."""
        for words in [
            ["renew", "no/record"], ["renewed", "no/record", "/dev/null"], ["renewed", "/dev/null", "no/record"],
        ]:
            with self.subTest(words=words):
                self.assertEqual(run(*words), (3, "", "grace: input failed\n"), "the end")


# ---- random histories


class Script:
    """A room of `grace script`, of which each session asks in turn."""

    def __init__(self):
        self.process = subprocess.Popen(
            [serving.program(), "script", "r"], stdin=subprocess.PIPE, stdout=subprocess.PIPE, text=True, bufsize=1,
        )

    def __enter__(self):
        return self

    def __exit__(self, *_):
        self.process.kill()
        self.process.communicate()

    def ask(self, session, request):
        """Sends a request, which is a text or a value. Returns the reply's text."""
        text = request if isinstance(request, str) else compact(request)
        self.process.stdin.write(f"{session} {text}\n")
        return self.process.stdout.readline().split(" ", 1)[1]

    def record(self, session):
        """Returns the entries of the room's record."""
        entries = []
        for place in itertools.count(0, PAGE):
            page = json.loads(self.ask(session, ["pull", place]))[3]
            entries += page
            if len(page) < PAGE:
                return entries


def drawers_of(script, sites, seed):
    """Returns so many who draw in the room, each by a session of its own."""
    drawers = []
    for session in range(1, sites + 1):
        drawer = Drawer(lambda request, session=session: script.ask(session, request), 1000 * seed + session)
        drawer.join("r")
        drawers.append(drawer)
    return drawers


class TestRandomHistories(unittest.TestCase):
    def test_random_history(self):
        """Sites draw at random, in rounds of concurrent operations."""
        for sites, seed in ((2, 1), (3, 2), (5, 3), (8, 4)):
            with self.subTest(sites=sites, seed=seed), Script() as script:
                drawers = drawers_of(script, sites, seed)
                draw_in_rounds(drawers, 150)
                renewal_of([compact(entry) for entry in script.record(1)])
