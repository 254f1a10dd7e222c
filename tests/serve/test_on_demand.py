"""Rooms that are opened at their first join or back: `--rooms N`."""

import unittest

from lib.crowd import Crowd
from lib.observing import await_report, expect_turned_away, report_of, samples
from lib.records import compact
from lib.serving import Server, run
from lib.websocket_client import SECONDS

BAD_MESSAGE = '["no",0,1,"bad-message"]'
NO_SUCH_ROOM = '["no",0,4,"no-such-room"]'
NO_SUCH_SITE = '["no",0,19,"no-such-site"]'
NOT_SERVED = '["no",0,21,"not-served"]'
LONGEST = 64 * "z"
NO_NAMES = [
    "", "R", "a.b", "a/b", "a b", "é", 65 * "a", "a.", ".2", "a.1", "a.02", "a.1000000", "a.2.3", 63 * "a" + ".2",
]
NUMBERED = ["a.2", "a.999999", 62 * "a" + ".2"]
CROWD, NAMES, FEW = 8, 200, 5


class TestOnDemand(unittest.TestCase):
    def draw_once(self, client, room):
        """Joins a room, creates an object there and leaves. Returns whether the server served the room."""
        reply = client.reply_to(["join", room])
        if reply[0] == "no":
            self.assertEqual(compact(reply), NOT_SERVED, "the refusal")
            return False
        site = reply[2]
        self.assertEqual(
            client.reply_to(["new", 1, [], "rect", [["x", site]]])[::2], ["made", [site, 1]], "the creation",
        )
        self.assertEqual(client.reply_to(["leave"])[0], "left", "the leave")
        return True

    def test_drawn_in_by_two(self):
        """Two draw in a room that is named nowhere. One waits for the other. They leave and come back, also over
        another connection."""
        for workers in 1, 2:
            with self.subTest(workers=workers):
                self.check_drawn_in_by_two(workers)

    def check_drawn_in_by_two(self, workers):
        """Has two draw in a room of a server with so many threads."""
        with Server(3, workers, rooms=(), on_demand=3) as server:
            first, second = server.client(), server.client()
            first.expect_reply(["join", "new-drawing"], '["joined",0,1]')
            second.expect_reply(["join", "new-drawing"], '["joined",1,2]')
            second.send_request('["wait",2]')
            first.expect_reply('["new",1,[],"rect",[["x",0]]]', '["made",2,[1,1]]')
            self.assertEqual(second.read_reply(), '["entries",3,2,[["new",[1,1],[],"rect",[["x",0]]]]]', "the page")
            second.expect_reply('["put",1,[[1,1]],[1,1],[],[["x",5]]]', '["taken",3,[[]]]')
            first.expect_reply(["leave"], '["left",4]')
            first.expect_reply(["back", "new-drawing", 2], '["no",4,20,"site-in-use"]')
            first.expect_reply(["back", "new-drawing", 1], '["back",4,1,1]')
            second.close()
            server.client().expect_reply(["back", "new-drawing", 2], '["back",4,2,1]')
            records = server.finish()
            self.assertEqual({room: len(record) for room, record in records.items()}, {"new-drawing": 4}, "the rooms")

    def test_a_room_for_each_name(self):
        """Each name is a room of its own, which stays open when nobody is in it. At the end the records are printed in
        the order of the openings, after those of the rooms that are named."""
        with Server(2, 2, rooms=("s", "r"), on_demand=3) as server:
            client, other = server.client(), server.client()
            for room in ("b", LONGEST, "a", "r"):
                client.expect_reply(["join", room], '["joined",0,1]')
                client.expect_reply('["new",1,[],"rect",[]]', '["made",1,[1,1]]')
                client.expect_reply(["leave"], '["left",2]')
            other.expect_reply(["join", "a"], '["joined",2,2]')
            client.expect_reply(["back", LONGEST, 1], '["back",2,1,1]')
            records = server.finish()
            sizes = [("s", 0), ("r", 2), ("b", 2), (LONGEST, 2), ("a", 3)]
            self.assertEqual([(room, len(record)) for room, record in records.items()], sizes, "the records")

    def test_no_room_is_left(self):
        """A name that needs one more room than N is refused by 21, to a join and to a back. Open rooms are served as
        before. The server warns once."""
        with Server(2, 1, rooms=("r",), on_demand=2) as server:
            client, other = server.client(), server.client()
            client.expect_reply(["join", "a"], '["joined",0,1]')
            client.expect_reply(["leave"], '["left",1]')
            client.expect_reply(["back", "b", 1], NO_SUCH_SITE)
            for request in (["join", "c"], ["back", "c", 1], ["join", "d"]):
                client.expect_reply(request, NOT_SERVED)
            for room, reply in (("a", '["joined",1,2]'), ("b", '["joined",0,1]'), ("r", '["joined",0,1]')):
                other.expect_reply(["join", room], reply)
                other.ask(["leave"])
            client.expect_reply(["back", "a", 1], '["back",2,1,0]')
            records = server.finish()
            self.assertEqual(list(records), ["r", "a", "b"], "the rooms")
            self.assertEqual(server.other_notices, [("WARN", "all 3 rooms are open")], "the notices")

    def test_illegal_names(self):
        """A name that no room can have is no request. It uses up no room."""
        with Server(1, 1, rooms=(), on_demand=1) as server:
            client = server.client()
            for name in NO_NAMES:
                client.expect_reply(["join", name], BAD_MESSAGE)
                client.expect_reply(["back", name, 1], BAD_MESSAGE)
            client.expect_reply(["join", "a"], '["joined",0,1]')
            server.finish()

    def test_names_with_numbers(self):
        """A room that would go on where another ended is not opened, since none has ended. It uses up no room."""
        with Server(1, 1, rooms=(), on_demand=1) as server:
            client = server.client()
            for room in NUMBERED:
                for request in (["join", room], ["back", room, 1]):
                    client.expect_reply(request, NOT_SERVED)
            client.expect_reply(["join", "a"], '["joined",0,1]')
            self.assertEqual(list(server.finish()), ["a"], "the rooms")

    def test_without_rooms_on_demand(self):
        """Without the option a name that is not on the command line is refused by 4."""
        with Server(1, 1) as server:
            client = server.client()
            client.expect_reply(["join", "a"], NO_SUCH_ROOM)
            client.expect_reply(["back", "a", 1], NO_SUCH_ROOM)
            server.finish()

    def test_by_path(self):
        """A handshake over /NAME opens NAME, and is answered by 503 where no further room may be open. Its session may
        enter rooms of the chain NAME alone, over another path no room. What it may not enter is refused by 4, and uses
        up no room."""
        with Server(4, 1, rooms=("r",), on_demand=2, by_path=True) as server:
            nowhere, first, second = (server.client(target) for target in ("/", "/a", "/b"))
            for target in ("/c", "/d?x"):
                expect_turned_away(server, target)
            for request in (["join", "a"], ["join", "r"], ["back", "a", 1]):
                nowhere.expect_reply(request, NO_SUCH_ROOM)
            for room in ("b", "c", "r", "b.2"):
                first.expect_reply(["join", room], NO_SUCH_ROOM)
            first.expect_reply(["join", "a.2"], NOT_SERVED)
            first.expect_reply(["join", "a"], '["joined",0,1]')
            second.expect_reply(["join", "b"], '["joined",0,1]')
            expect_turned_away(server, "/c")
            server.client("/b").expect_reply(["join", "b"], '["joined",1,2]')
            self.assertEqual(list(server.finish()), ["r", "a", "b"], "the rooms")

    def test_watch(self):
        """`grace watch` shows a room that was opened on demand, and may open one."""
        with Server(3, 1, rooms=(), on_demand=2) as server:
            client = server.client()
            client.expect_reply(["join", "a"], '["joined",0,1]')
            client.expect_reply(["new", 1, [], "rect", [["x", 0]]], '["made",1,[1,1]]')
            shown = run("watch", server.name, "a", seconds=SECONDS)
            self.assertEqual(shown, (0, '["versions",3,[1,1],"rect",[[[],[["x",0]]]]]\n', ""), "the end of grace watch")
            server.other_client().joined("a", 2, 2)
            self.assertEqual(run("watch", server.name, "b", seconds=SECONDS), (0, "", ""), "the end of grace watch")
            server.other_client().joined("b", 0, 1)
            server.finish()

    def test_metrics_and_reports(self):
        """Metrics and reports count the open rooms, and the entries of rooms on demand. They name only the rooms of the
        command line."""
        with Server(2, 1, rooms=("r",), on_demand=2, report=1) as server:
            client = server.client()
            for room in ("a", "b", "c", "d"):
                served = self.draw_once(client, room)
                self.assertEqual(served, room in "ab", f"whether {room} is served")
            client.expect_reply(["back", "a", 1], '["back",2,1,1]')
            client.expect_reply('["put",2,[[1,1]],[1,1],[],[["x",5]]]', '["taken",2,[[]]]')
            families = "grace_rooms", "grace_entries"
            found = {name: number for name, number in samples(server).items() if name.startswith(families)}
            self.assertEqual(found, {
                "grace_rooms_open": 3, "grace_rooms_max": 3, "grace_rooms_opened_total": 2,
                "grace_rooms_closed_total": 0,
                'grace_rooms_not_served_total{reason="full"}': 2, 'grace_rooms_not_served_total{reason="elsewhere"}': 0,
                'grace_rooms_not_served_total{reason="file"}': 0, 'grace_rooms_not_served_total{reason="memory"}': 0,
                'grace_rooms_not_served_total{reason="late"}': 0,
                'grace_entries_total{kind="join"}': 2, 'grace_entries_total{kind="creation"}': 2,
                'grace_entries_total{kind="change"}': 1,
            }, "the samples")
            server_line, *room_lines = report_of(server, 1, 1, {"r": (0, 0, 0)})
            await_report(server, [server_line, ("INFO", "report: rooms open 3/3"), *room_lines])
            server.client()
            server.finish()

    def test_joins_of_a_room_on_demand(self):
        """The server warns at the 231st of 256 joins of a room that it opened, by its name."""
        with Server(2, 1, rooms=("r",), on_demand=1) as server:
            client = server.client()
            for site in range(1, 257):
                client.expect_reply(["join", "a"], f'["joined",{site - 1},{site}]')
                client.ask(["leave"])
            client.expect_reply(["join", "a"], '["no",256,5,"room-full"]')
            server.client()
            server.finish()
            self.assertEqual(server.other_notices, [("WARN", "room a has 231 of 256 joins")], "the notices")

    def draw_in_all(self, client, names):
        """Draws once in each of these rooms."""
        for name in names:
            self.assertTrue(self.draw_once(client, name), f"whether {name} is served")

    def test_many_at_once(self):
        """Eight clients open 200 rooms at once, half of them from the other end. Each name is one room, and its record
        has what all drew in it."""
        names = [f"room-{number}" for number in range(NAMES)]
        with Server(CROWD, CROWD, rooms=("r",), on_demand=NAMES) as server:
            crowd = Crowd()
            for number in range(CROWD):
                crowd.start(self.draw_in_all, server.client(), names if number % 2 else names[::-1])
            crowd.end()
            records = server.finish()
            expected = {"r": 0, **dict.fromkeys(names, 2 * CROWD)}
            self.assertEqual(
                {room: len(record) for room, record in records.items()}, expected, "the sizes of the records",
            )

    def draw_where_served(self, client, names, served):
        """Draws once in each of these rooms that the server serves. Adds the names of these to a list."""
        for name in names:
            if self.draw_once(client, name):
                served.append(name)

    def test_race_for_the_last_rooms(self):
        """Eight clients at once ask for forty rooms where five may be opened. All are served in the same five."""
        names = [f"room-{number}" for number in range(8 * FEW)]
        with Server(CROWD + 1, CROWD, rooms=(), on_demand=FEW) as server:
            crowd, served = Crowd(), [[] for _ in range(CROWD)]
            for number, clients_rooms in enumerate(served):
                start = number * FEW
                crowd.start(self.draw_where_served, server.client(), names[start:] + names[:start], clients_rooms)
            crowd.end()
            last = []
            self.draw_where_served(server.client(), names, last)
            records = server.finish()
            self.assertEqual(set(last), set(records), "the rooms that are served at the end")
            self.assertEqual(len(records), FEW, "the number of rooms")
            for room, record in records.items():
                joins = sum(room in rooms for rooms in [*served, last])
                self.assertEqual(len(record), 2 * joins, f"the size of the record of {room}")
