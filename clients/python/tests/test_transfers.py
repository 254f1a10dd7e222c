"""What a client takes with it from a room that has ended into its successor: rows by hand, and random histories."""

import json
import os
import pathlib
import random
import tempfile
import time
import unittest
from collections import Counter

from grace.forms import LIMITS, entry_of, frozen, write_text
from grace.transfer import Transfer, draw_same, drawing_of, drawn_objects
from test_histories import history_of
from lib.serving import run

HISTORIES = 200
# The client is site 1 of the old room and site 9 of the successor.
SITE = 9
MADE = ["new", [1, 1], [], "rect", [["x", 0]]]
START = [["join", 1], MADE]


def put(name, seen, version, attributes, target=(1, 1)):
    """Returns the entry of a put."""
    return ["put", name, seen, target, version, attributes]


def many_keys(letter, count):
    """Returns attributes of different keys."""
    return [[f"{letter}{key}", 1] for key in range(count)]


# A name, the old record, the pending operations, the successor's first entries, the operations that the client sends,
# and the copies.
ROWS = [
    ("nothing pending", [MADE], [], START, [], []),
    ("a put", [MADE], [put([1, 2], [[1, 1]], [], [["x", 5]])], START, [put([9, 1], [[1, 1]], [], [["x", 5]])], []),
    ("two puts are one", [MADE],
     [put([1, 2], [[1, 1]], [], [["x", 5]]), put([1, 3], [[1, 2]], [], [["x", 6], ["y", 7]])], START,
     [put([9, 1], [[1, 1]], [], [["x", 6], ["y", 7]])], []),
    ("a put of the same value", [MADE], [put([1, 2], [[1, 1]], [], [["x", 0]])], START, [], []),
    ("a put of a text in place of a number", [MADE], [put([1, 2], [[1, 1]], [], [["x", "0"]])], START,
     [put([9, 1], [[1, 1]], [], [["x", "0"]])], []),
    ("a put beside another", [MADE, put([2, 1], [[1, 1]], [], [["y", 7]])], [put([1, 2], [[1, 1]], [], [["x", 5]])],
     [["join", 1], ["new", [1, 1], [], "rect", [["x", 0], ["y", 7]]]], [put([9, 1], [[1, 1]], [], [["x", 5]])], []),
    ("a put that conflicts with another", [MADE, put([2, 1], [[1, 1]], [], [["x", 9], ["y", 7]])],
     [put([1, 2], [[1, 1]], [], [["x", 5]])], [["join", 1], ["new", [1, 1], [], "rect", [["x", 9], ["y", 7]]]],
     [["new", [9, 1], [[1, 1]], "rect", [["x", 5]]]], [[[1, 1], [9, 1]]]),
    ("a put on the second of two versions",
     [MADE, put([2, 1], [[1, 1]], [], [["x", 5]]), put([3, 1], [[1, 1]], [], [["x", 9]])],
     [put([1, 2], [[1, 1], [2, 1], [3, 1]], [[3, 1]], [["fill", "red"]])],
     [["join", 1], ["join", 2], ["new", [1, 1], [], "rect", []], put([1, 2], [[1, 1]], [], [["x", 5]]),
      put([2, 1], [[1, 1]], [], [["x", 9]])],
     [put([9, 1], [[1, 2], [2, 1]], [[2, 1]], [["fill", "red"]])], []),
    ("a drop", [MADE], [["drop", [1, 2], [[1, 1]], [1, 1], []]], START, [["drop", [9, 1], [[1, 1]], [1, 1], []]], []),
    ("a drop of what was changed meanwhile", [MADE, put([2, 1], [[1, 1]], [], [["x", 9]])],
     [["drop", [1, 2], [[1, 1]], [1, 1], []]], [["join", 1], ["new", [1, 1], [], "rect", [["x", 9]]]], [], []),
    ("a put on what was deleted meanwhile", [MADE, ["drop", [2, 1], [[1, 1]], [1, 1], []]],
     [put([1, 2], [[1, 1]], [], [["x", 5]])], [], [["new", [9, 1], [], "rect", [["x", 5]]]], []),
    ("a new object", [MADE],
     [["new", [1, 2], [[1, 1]], "line", [["x", 1]]], put([1, 3], [[1, 2]], [], [["x", 2]], [1, 2])], START,
     [["new", [9, 1], [[1, 1]], "line", [["x", 2]]]], []),
    ("a new object that is deleted again", [MADE],
     [["new", [1, 2], [[1, 1]], "line", []], ["drop", [1, 3], [[1, 2]], [1, 2], []]], START, [], []),
    ("a new object of more attributes than a creation takes", [],
     [["new", [1, 1], [], "line", many_keys("a", 16)], put([1, 2], [[1, 1]], [], [["b", 2]])], [],
     [["new", [9, 1], [], "line", sorted(many_keys("a", 16))], put([9, 2], [[9, 1]], [], [["b", 2]], [9, 1])], []),
    ("an object before it that is not drawn",
     [["new", [1, 1], [], "line", []], ["drop", [1, 2], [[1, 1]], [1, 1], []],
      ["new", [1, 3], [[1, 2]], "rect", [["x", 0]]]],
     [put([1, 4], [[1, 3]], [], [["x", 5]], [1, 3])], START, [put([9, 1], [[1, 1]], [], [["x", 5]])], []),
]


def transfer_of(record, pending, start, site=SITE):
    """Returns the drawing with the pending operations, the successor's with what is sent, and the transfer."""
    every, following = drawing_of([*record, *pending]), drawing_of(start)
    names = [name for _, name, *_ in pending]
    return every, following, Transfer(drawing_of(record), every, names, following, site)


def sent(transfer):
    """Returns the entries of what is sent."""
    return [entry_of(operation) for group in transfer.groups for operation in group.operations]


def row_of(words):
    """Returns the record, the pending operations and the successor's first entries of a row."""
    return map(frozen, next(row[1:4] for row in ROWS if row[0].startswith(words)))


def run_on(word, entries, *rest):
    """Runs a command of the program on a record. Returns its status and output."""
    with tempfile.TemporaryDirectory() as name:
        file = pathlib.Path(name) / "record"
        file.write_text("".join(f"{write_text(entry)}\n" for entry in entries))
        return run(word, file, *rest)[:2]


def renewal_of(entries):
    """Returns the entries of the renewal of a record by `grace renew`, or None if it finds none."""
    status, output = run_on("renew", entries)
    return [frozen(json.loads(line)) for line in output.splitlines()] if status == 0 else None


def split(history, source):
    """Splits a history: a record, and operations of a site that are not in it."""
    site = source.choice(history.operations).name[0]
    own = [operation for operation in history.operations if operation.name[0] == site]
    first = max(1, len(own) - source.randrange(6))
    record = [it for it in history.operations
              if not any(one == site and count >= first for one, count in (it.name, *it.seen))]
    known = {operation.name for operation in record}
    pending = []
    for operation in own[first - 1:]:
        if any(one != site and (one, count) not in known for one, count in operation.seen):
            break
        pending.append(operation)
    joins = [("join", place + 1) for place in range(len(history.sites))]
    return [*joins, *map(entry_of, record)], list(map(entry_of, pending))


def shown(drawing):
    """Returns how often a drawing draws each version: its kind and attributes."""
    return Counter(
        (drawing.kind(name), tuple(version.attributes.items()))
        for name, versions in drawn_objects(drawing) for version in versions
    )


class TestTransfers(unittest.TestCase):
    def test_by_hand(self):
        """The transfers of all rows."""
        for name, *row in ROWS:
            record, pending, start, operations, copies = map(frozen, row)
            self.assertTrue(draw_same(drawing_of(record), drawing_of(start)), f"{name}: the same is drawn")
            *_, transfer = transfer_of(record, pending, start)
            self.assertEqual((sent(transfer), transfer.copies), (list(operations), list(copies)), name)

    def test_too_many_keys(self):
        """The most keys of an object are used up by others meanwhile. Then its version becomes an object of its own."""
        keys = many_keys("k", LIMITS.keys)
        record = [MADE]
        for part in range(4):
            seen = [[1, 1], [2, part]] if part else [[1, 1]]
            record.append(put([2, part + 1], seen, [], keys[16 * part:16 * part + 16]))
        every = sorted([["x", 0], *keys])
        start = [["join", 1], ["new", [1, 1], [], "rect", every[:1]]]
        for part in range(4):
            start.append(put([1, part + 2], [[1, part + 1]], [], every[16 * part + 1:16 * part + 17]))
        pending = [put([1, 2], [[1, 1]], [], [["one-more", 1]])]
        *_, transfer = transfer_of(*map(frozen, (record, pending, start)))
        self.assertEqual([word for word, *_ in sent(transfer)], ["new", *["put"] * 4], "the words")
        self.assertEqual(transfer.copies, [((1, 1), (9, 1))], "the copy")

    def test_long_texts(self):
        """Long texts go into several requests, as each is one message."""
        texts = [[key, "\x01" * LIMITS.text_bytes] for key, _ in many_keys("k", 16)]
        pending = [
            put([1, part + 2], [[1, part + 1]], [], [["x", 5], *texts[4 * part:4 * part + 4]]) for part in range(4)
        ]
        record = [MADE, put([2, 1], [[1, 1]], [], [["x", 9]])]
        start = [["join", 1], ["new", [1, 1], [], "rect", [["x", 9]]]]
        *_, transfer = transfer_of(*map(frozen, (record, pending, start)))
        sizes = [len(write_text(entry).encode()) for entry in sent(transfer)]
        self.assertLessEqual(max(sizes), LIMITS.message_bytes, "whether each is one message")
        attributes = sorted(pair for entry in sent(transfer) for pair in entry[-1])
        self.assertEqual(attributes, sorted(frozen([["x", 5], *texts])), "the attributes")

    def test_what_corresponds(self):
        """Where versions and names of the old room are in the successor."""
        every, _, transfer = transfer_of(*row_of("a put on the second"))
        # The put makes the second version the first one.
        second, first = every.versions((1, 1))
        where = lambda *found: [(it.object, it.version.id) for it in found]
        self.assertEqual(where(transfer.find((1, 1), first.id)), [((1, 1), ((1, 2),))], "one that stays")
        self.assertEqual(where(transfer.find((1, 1), second.id)), [((1, 1), ((2, 1), (9, 1)))], "one that goes on")
        self.assertEqual(
            where(*transfer.continuations((1, 1), [(3, 1)])), [((1, 1), ((2, 1), (9, 1)))], "what contains one change",
        )
        self.assertEqual(len(transfer.continuations((1, 1), [])), 2, "all versions")
        self.assertEqual(
            (transfer.find((1, 1), ()), transfer.continuations((7, 7), [])), (None, []), "what was never there",
        )
        *_, transfer = transfer_of(*row_of("an object before it"))
        self.assertEqual(transfer.renamed, [((1, 3), (1, 1))], "the names")

    def test_at_random(self):
        """Each version that the old room would show with the pending operations is shown by the successor, and no
        other. The program refuses none of the operations."""
        seed = int(os.environ.get("SEED", time.time() % 1_000_000))
        print(f"transfers at random: seed {seed}", flush=True)
        source = random.Random(seed)
        counts = Counter()
        for room in range(HISTORIES):
            record, pending = split(history_of(room, source), source)
            start = renewal_of(record)
            # A record of few changes may have no renewal that is not longer.
            if start is not None:
                self.check_one(record, pending, start, counts)
        print(dict(counts), flush=True)
        self.assertFalse(
            counts["rooms"] < HISTORIES / 2 or not all(counts[word] for word in ("new", "put", "drop")),
            "too few rooms were renewed, or not every kind of operation was sent",
        )

    def check_one(self, record, pending, start, counts):
        """Checks the transfer of one client."""
        self.assertTrue(draw_same(drawing_of(record), drawing_of(start)), "whether the same is drawn")
        site = sum(word == "join" for word, *_ in start) + 1
        every, following, transfer = transfer_of(record, pending, start, site)
        self.assertEqual(shown(following), shown(every), "what is shown")
        after = [*start, ("join", site), *sent(transfer)]
        self.assertEqual(run_on("check", after, "/dev/null"), (0, "holds\n"), "the verdict")
        self.assertEqual(shown(drawing_of(after)), shown(every), "what the entries draw")
        counts.update(rooms=1, pending=len(pending), copies=len(transfer.copies))
        counts.update(word for word, *_ in sent(transfer))
