"""Servers that keep their rooms, and are refused an allocation: one in each run, of those that the requests of a visitor
make."""

import concurrent.futures
import os
import signal
import tempfile
import unittest

from lib.keeping import OnDemandServer, build_library, expect_kept, room_folder
from lib.observing import wait_until
from lib.running import OPTIONS
from lib.websocket_client import CLOSE, Ended, Fault, closing, frame

# The library prints this line when it refuses the allocation.
REFUSED = "refused"
# The runs at once. A run mostly waits.
BATCH = 2 * (os.cpu_count() or 1)
# With --short only each of so many allocations is refused.
STEP = 7
# No visit makes more allocations.
MOST = 1000
PUTS = 3
# The threads of the server that answer clients.
THREADS = 2


def draw(client, seq):
    """A client that is alone in a room as site 1, with so many operations, puts values to the object (1,1), and creates
    it if it is not there."""
    if seq == 0:
        client.expect_reply(["new", 1, [], "rect", []], '["made",1,[1,1]]')
        seq = 1
    for number in range(seq + 1, seq + 1 + PUTS):
        word, *_ = client.reply_to(["put", number, [[1, number - 1]], [1, 1], [], [["x", number]]])
        if word != "taken":
            raise AssertionError(f"a put was answered by {word}")


def wait_until_ready(server):
    """Each thread of the server has answered a client, so that what it allocates once is there."""
    for _ in range(THREADS):
        client = server.client()
        client.reply_to(["leave"])
        client.close()


def visit(server, room):
    """A visitor joins a room and draws. Returns false if the server gave up."""
    try:
        client = server.client()
        reply = client.reply_to(["join", room])
        if reply[0] == "no":
            return False
        draw(client, 0)
        client.send(frame(CLOSE, closing(1000)))
        client.expect_end()
        return True
    except (Ended, Fault):
        server.clients[-1].hang_up()
        return False


def comes_back(server, room):
    """Another visitor comes back as the site of the one before, or joins, and draws. Returns false if the server refuses
    it: while it ends the visitor before, or tries again to keep the room."""
    try:
        client = server.client()
        reply = client.reply_to(["back", room, 1])
        if reply[:3:2] == ["no", 19]:
            reply = client.reply_to(["join", room])
        if reply[0] != "no":
            draw(client, reply[3] if reply[0] == "back" else 0)
        client.close()
        return reply[0] != "no"
    except (Ended, Fault):
        server.clients[-1].hang_up()
        return False


class TestRefusedMemory(unittest.TestCase):
    time_limit = 600

    @classmethod
    def setUpClass(cls):
        cls.folder = tempfile.TemporaryDirectory()
        cls.addClassCleanup(cls.folder.cleanup)
        cls.library = build_library("refuse", cls.folder.name)

    def run_refused(self, room, number):
        """Runs a server of which this allocation of a visit is refused. Returns whether the visit makes so many."""
        variables = {"LD_PRELOAD": self.library, "COUNTED": "signal", "REFUSED": str(number)}
        with room_folder() as folder, OnDemandServer(folder, THREADS, ["r"], variables=variables) as server:
            wait_until_ready(server)
            server.process.send_signal(signal.SIGUSR1)
            was_served = visit(server, room)
            was_refused = REFUSED in server.error_text().splitlines()
            if not was_refused and not was_served:
                raise AssertionError("a visit failed though nothing was refused")
            wait_until("the next visitor is served", lambda: comes_back(server, room))
            server.end_input()
            server.output()
            self.assertEqual(server.process.returncode, 0, "the status")
            expect_kept(folder, [room], server.transcripts())
            return was_refused

    def refuse_each(self, room):
        """Refuses one allocation after the other, until a visit makes no more. What replies told is kept, and the next
        visitor is served."""
        step = STEP if OPTIONS.times < 10 else 1
        with concurrent.futures.ThreadPoolExecutor(BATCH) as pool:
            for first in range(1, MOST, BATCH * step):
                numbers = range(first, first + BATCH * step, step)
                if not all(pool.map(lambda number: self.run_refused(room, number), numbers)):
                    return first
        raise AssertionError(f"a visit makes more than {MOST} allocations")

    def test_open_room(self):
        """The visitor joins a room that is open from the start."""
        self.assertGreater(self.refuse_each("r"), 1, "the allocations of a visit")

    def test_room_on_demand(self):
        """The visitor's room is opened, with its file."""
        self.assertGreater(self.refuse_each("s"), 1, "the allocations of a visit")
