"""How a client loads a record: with several pulls in flight, over a line with a long round trip too."""

import unittest

from grace.loading import load_all
from relay import PASS, Relay
from rooms import agree, open_rooms
from lib.serving import Server

# A page has at most 64 entries, so the record has 35 pages.
OBJECTS = 2200
ROUND_TRIP_SECONDS = 0.1
MOST_PULLS = 32


class TestLoading(unittest.TestCase):
    def load_from(self, page_length, length, more):
        """Loads a record from a server of pages of this length, where a further entry is there after each pull. Returns
        the number of pulls."""
        server, record, pulls, asked = list(range(length)), [], [], []
        known = [length]

        def send(start):
            asked.append(start)
            if len(server) < length + more:
                server.append(len(server))
            pulls.append((server[start:start + page_length], len(server)))

        def receive(_):
            page, known[0] = pulls.pop(0)
            return page

        load_all(lambda: (len(record), known[0]), send, receive, record.extend)
        self.assertEqual((record, pulls), (server, []), f"the record by pages of {page_length}")
        return len(asked)

    def test_any_pages(self):
        """The order holds for any length of the server's pages, also while the record grows."""
        for length in (0, 1, 63, 64, 65, 128, 1000, 5000):
            for page_length in (1, 10, 63, 64, 65, 200):
                self.load_from(page_length, length, 70)
        self.assertEqual(self.load_from(64, 6400, 0), 100, "the pulls for pages of 64")
        # After the first page the client knows the length of the others.
        self.assertEqual(self.load_from(10, 1000, 0), 16 + 99, "the pulls for pages of 10")

    def test_slow_line(self):
        """Over a line of 100 ms a client loads a record with 32 pulls in flight, and has each entry once and in
        order."""
        unanswered, most = [0], [0]
        with Server(10, 4) as server, open_rooms(server.name) as (direct,):
            for number in range(OBJECTS):
                direct.create("rect", {"x": number})
            agree(direct)
            with Relay(server.address[1]) as relay:
                relay.round_trip_seconds = ROUND_TRIP_SECONDS
                hear = relay.hear

                def decide(text):
                    unanswered[0] += text.startswith('["pull"')
                    most[0] = max(most[0], unanswered[0])
                    return PASS

                def count(data):
                    unanswered[0] -= data.count(b'["entries",')
                    hear(data)

                relay.what_to_do, relay.hear = decide, count
                with open_rooms(relay.name) as (room,):
                    agree(direct, room)
                    self.assertEqual(room.record, direct.record, "the record")
                    self.assertEqual(len(room.objects()), OBJECTS, "the objects")
            self.assertEqual(most[0], MOST_PULLS, "the most pulls that the server had not answered")
