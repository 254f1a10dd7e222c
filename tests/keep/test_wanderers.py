"""Many clients who go from one room on demand to another."""

import contextlib
import random
import time
import unittest

from lib.checks import check
from lib.crowd import Crowd
from lib.keeping import OnDemandServer, expect_kept, room_folder
from lib.on_demand import NOT_SERVED, rooms_of
from lib.records import compact
from lib.running import OPTIONS
from lib.websocket_client import SECONDS, Ended
# The clients and the rooms of a crowd, the rooms that may be open, and how often each client draws.
CLIENTS, NAMES, OPEN, TURNS = 100, 50, 20, 12


class Wanderer:
    """A person who draws in one room after another. `sites` has its site in each room, and how often it drew there."""

    def __init__(self, number, client):
        self.source = random.Random(number)
        self.client = client
        self.sites = {}

    def wander(self, turns):
        """Enters so many rooms, draws once in each, and leaves. Waits a while when a room is not served."""
        names = [f"room-{number}" for number in range(NAMES)]
        for _ in range(turns):
            room = self.source.choice([*names, *self.sites])
            while not self.enter(room):
                time.sleep(self.source.uniform(0.01, 0.2))
            site, made = self.sites[room]
            # The site has drawn alone with what it knows: it makes an object of its own each time.
            seen = [[site, made]] if made else []
            reply = self.client.reply_to(["new", made + 1, seen, "rect", [["x", made]]])
            check.assertEqual(reply[::2], ["made", [site, made + 1]], f"the reply in {room}")
            self.sites[room] = site, made + 1
            time.sleep(self.source.uniform(0, 0.02))
            check.assertEqual(self.client.reply_to(["leave"])[0], "left", "the reply")

    def enter(self, room):
        """Joins a room, or comes back to it. Returns whether it is served."""
        if room not in self.sites:
            reply = self.client.reply_to(["join", room])
            if reply[0] == "joined":
                self.sites[room] = reply[2], 0
        else:
            site, made = self.sites[room]
            reply = self.client.reply_to(["back", room, site])
            if reply[0] == "back":
                check.assertEqual(reply[2:], [site, made], f"what came back in {room}")
        if reply[0] == "no":
            check.assertEqual(compact(reply), NOT_SERVED, f"the refusal in {room}")
        return reply[0] != "no"


def wander_to_the_end(person):
    """Lets a person wander until the connection ends."""
    with contextlib.suppress(Ended):
        person.wander(100_000)


class TestWanderers(unittest.TestCase):
    time_limit = 600

    def test_a_crowd(self):
        """A hundred clients draw in fifty rooms of which twenty may be open, each in one room after another. Nothing
        that was told is lost, and no room is in two records."""
        for workers in 2, 4:
            with self.subTest(workers=workers):
                self.check_a_crowd(workers)

    def check_a_crowd(self, workers):
        """Has a crowd draw in the rooms of a server with so many threads."""
        with room_folder() as folder, OnDemandServer(folder, OPEN, workers=workers, patience=3 * SECONDS) as server:
            crowd = Crowd()
            people = [Wanderer(number, server.client()) for number in range(CLIENTS)]
            for person in people:
                crowd.start(person.wander, TURNS)
            crowd.end(300)
            found = rooms_of(server)
            self.assertGreaterEqual(found["opened_total"], NAMES)
            self.assertLessEqual(found["opened_total"] - found["closed_total"], OPEN)
            records = server.finish()
            drawn = sum(made for person in people for _, made in person.sites.values())
            self.assertEqual(drawn, CLIENTS * TURNS, "the number of turns")
            joined = sum(len(person.sites) for person in people)
            self.assertEqual(sum(map(len, records.values())), drawn + joined, "the number of entries")

    def test_killed_while_a_crowd_wanders(self):
        """A server is killed while clients go from room to room. The next one has all that they had been told."""
        transcripts = []
        with room_folder() as folder:
            for _ in range(min(OPTIONS.times, 3)):
                with OnDemandServer(folder, OPEN, before=transcripts) as server:
                    crowd = Crowd()
                    people = [Wanderer(number, server.client()) for number in range(CLIENTS // 2)]
                    for person in people:
                        crowd.start(wander_to_the_end, person)
                    time.sleep(random.uniform(0.5, 2))
                    server.kill()
                    crowd.end()
                    transcripts = server.transcripts()
                rooms = {room for transcript in transcripts for room, *_ in transcript.lines}
                expect_kept(folder, sorted(rooms), transcripts)
