"""Random histories of up to five sites. After each step the module's versions of each object must be those of the
program. Each site knows a part of the history, and names a version that the module computes from that part alone. If
the program did not find it, the refusal would show."""

import os
import random
import time
import unittest

from grace import Drawing, LIMITS, entry_of, operation_of
from grace.forms import write_text
from lib.checks import check
from lib.serving import run
from test_shown_rows import shown

HISTORIES = int(os.environ.get("HISTORIES", 300))
# The number of rooms in one process of the program.
ROOMS = 50
KEYS = ["x", "y", "fill"]
VALUES = [1, 2, "1"]


def is_ready(drawing, operation):
    """Returns whether the operation is the next of its site, and the drawing has all operations of its state vector."""
    site, number = operation.name
    return number == drawing.count(site) + 1 and all(count <= drawing.count(other) for other, count in operation.seen)


class History:
    """One room, with the knowledge of each of its sites."""

    def __init__(self, room, source, values):
        self.room, self.source, self.values = room, source, values
        self.whole = Drawing()
        self.operations = []
        # Each line, with its expected reply.
        self.lines = []
        self.sites = [Drawing() for _ in range(source.randrange(1, 6))]
        self.keys = KEYS[: source.randrange(1, 4)]
        for place in range(len(self.sites)):
            self.expect_reply(place, ["join", f"r{room}"], ["joined", place, place + 1])
        self.at = len(self.sites)

    def expect_reply(self, place, request, reply):
        """Adds a request of a site and its expected reply."""
        session = self.room * 5 + place
        self.lines.append((f"{session} {write_text(request)}", f"{session} {write_text(reply)}"))

    def learn(self, known):
        """A site learns some of the operations that it lacks, in any causal order."""
        for operation in self.operations:
            site, number = operation.name
            if number > known.count(site) and self.source.random() < 0.75 and is_ready(known, operation):
                known.add(operation)

    def next_operation(self, known, site):
        """Returns the next operation of a site, by its knowledge."""
        front = (site, known.count(site) + 1), known.seen()
        objects = known.names()
        if not objects or len(objects) < 3 and self.source.random() < 0.08:
            return operation_of(("new", *front, "rect", (("x", self.source.choice(self.values)),)))
        name = self.source.choice(objects)
        alive = [version for version in known.versions(name) if not version.is_gone]
        if not alive:
            return operation_of(("new", *front, "rect", ()))
        version = self.source.choice(alive).id
        if self.source.random() < 0.12:
            return operation_of(("drop", *front, name, version))
        keys = self.source.sample(self.keys, self.source.randrange(1, len(self.keys) + 1))
        pairs = tuple((key, self.source.choice(self.values)) for key in keys)
        return operation_of(("put", *front, name, version, pairs))

    def step(self):
        """Adds one operation, and then reads of all objects."""
        place = self.source.randrange(len(self.sites))
        known = self.sites[place]
        self.learn(known)
        operation = self.next_operation(known, place + 1)
        known.add(operation)
        self.whole.add(operation)
        self.operations.append(operation)
        word, (_, number), *rest = entry_of(operation)
        ids = [version.id for version in self.whole.versions(operation.object)]
        reply = ["made", self.at, operation.name] if word == "new" else ["taken", self.at, ids]
        self.expect_reply(place, [word, number, *rest], reply)
        self.at += 1
        for name in self.whole.names():
            asker = self.source.randrange(len(self.sites))
            self.expect_reply(asker, ["show", name], ["versions", self.at, name, "rect", shown(self.whole, name)])

    def most_versions(self):
        """Returns the most versions of an object."""
        return max((len(self.whole.versions(name)) for name in self.whole.names()), default=0)

    def check_other_order(self):
        """The operations in another causal order must produce the same versions."""
        other, rest = Drawing(), list(self.operations)
        while rest:
            operation = self.source.choice([one for one in rest if is_ready(other, one)])
            other.add(operation)
            rest.remove(operation)
        for name in self.whole.names():
            check.assertEqual(shown(other, name), shown(self.whole, name), "the versions in another order")


def history_of(room, source, values=VALUES):
    """Returns a history of some steps. It ends before the limit of versions, which a client cannot foresee."""
    history = History(room, source, values)
    for _ in range(source.randrange(4, 28)):
        if history.most_versions() <= LIMITS.versions // 2:
            history.step()
    history.check_other_order()
    return history


class TestHistories(unittest.TestCase):
    def compare(self, some):
        """Runs histories in one process of the program, and compares all replies."""
        lines = [line for history in some for line in history.lines]
        text = "".join(f"{request}\n" for request, _ in lines)
        status, output, errors = run("script", *(f"r{it.room}" for it in some), stdin=text.encode(), seconds=200)
        self.assertEqual((status, errors), (0, ""), "the end")
        replies = output.splitlines()
        for (request, expected), reply in zip(lines, replies):
            self.assertEqual(reply, expected, f"the reply to {request}")
        self.assertEqual(len(replies), len(lines), "how many replies")

    def test_random_histories(self):
        """Runs random histories and prints their seed."""
        seed = int(os.environ.get("SEED", time.time() % 1_000_000))
        print(f"random histories: seed {seed} (SEED={seed} runs the same again)", flush=True)
        source = random.Random(seed)
        all_histories = [history_of(room, source) for room in range(HISTORIES)]
        for start in range(0, HISTORIES, ROOMS):
            self.compare(all_histories[start:start + ROOMS])
        counts = [history.most_versions() for history in all_histories]
        several = sum(count > 1 for count in counts)
        gone = sum(
            any(it.is_gone for name in one.whole.names() for it in one.whole.versions(name)) for one in all_histories
        )
        replies = sum(len(history.lines) for history in all_histories)
        print(f"{HISTORIES} histories, {replies} replies, {several} with several versions, up to {max(counts)}, "
              f"{gone} with one that is gone", flush=True)
        self.assertFalse(
            several < HISTORIES / 4 or gone < HISTORIES / 8,
            "too few histories have several versions, or one that is gone",
        )
