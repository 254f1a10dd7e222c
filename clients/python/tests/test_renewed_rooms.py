"""Clients of rooms that the program renews, at a start or when it opens them on demand. They go on in the next one."""

import contextlib
import unittest

from grace import Refused, Renewed, Room
from lib.keeping import KeepingServer, OnDemandServer, room_folder
from lib.records import compact
from relay import CUT_AFTER, CUT_BEFORE, PASS, Relay
from test_renewals import GOES_ON, shown
from rooms import PATIENCE, EventLog, agree, expect_error, open_rooms, wait_until

# A room is nearly full at this number of joins.
JOINS = 231
# How many rooms the server opens on demand. Without any, the room is on the command line.
AT_A_START, ON_DEMAND = 0, 3
RENEWALS = ("at a start", AT_A_START), ("on demand", ON_DEMAND)


def record_of(joins):
    """Returns the file of a room with this many joins. It draws a rectangle and a line."""
    entries = [["join", site] for site in range(1, joins + 1)]
    entries += [
        ["new", [1, 1], [], "line", []], ["drop", [1, 2], [[1, 1]], [1, 1], []],
        ["new", [1, 3], [[1, 2]], "rect", [["x", 0]]], ["new", [1, 4], [[1, 3]], "line", [["x", 0]]],
    ]
    return "".join(f"{compact(entry)}\n" for entry in entries).encode()


def server_of(folder, on_demand, port=0, **options):
    """Returns a server over this folder for any number of sessions, on this port or a free one."""
    server = OnDemandServer(folder, on_demand, **options) if on_demand else KeepingServer(folder, sessions=0)
    server.port = port
    return server


@contextlib.contextmanager
def served(joins, on_demand, **options):
    """Yields a server of a room with this many joins, and a relay before it. Yields a function too that starts another
    server over the same folder and at the same port."""
    with contextlib.ExitStack() as stack:
        folder = stack.enter_context(room_folder({"r": record_of(joins)}))
        server = stack.enter_context(server_of(folder, on_demand, **options))

        def start_again():
            stack.enter_context(server_of(folder, on_demand, server.address[1]))

        yield server, stack.enter_context(Relay(server.address[1])), start_again


def cut_off(relay, what):
    """The relay cuts the next put in this way. It lets nothing through after that."""

    def decide(text):
        if not text.startswith('["put"'):
            return PASS
        relay.what_to_do = lambda text: CUT_BEFORE
        return what

    relay.what_to_do = decide


def news(copies=()):
    """Returns the news that the drawing goes on in the second room."""
    return [Renewed("r", "r.2", GOES_ON, list(copies), None)]


class TestRenewedRooms(unittest.TestCase):
    def test_started_again(self):
        """The server is killed and started again while one client is cut off. Both go on in the next room by
        themselves. No change is lost, and none is made twice."""
        for name, on_demand, what in [
            ("at a start, with a change that it lacks", AT_A_START, CUT_BEFORE),
            ("at a start, with a change that it has", AT_A_START, CUT_AFTER),
            ("on demand, with a change that it lacks", ON_DEMAND, CUT_BEFORE),
            ("on demand, with a change that it has", ON_DEMAND, CUT_AFTER),
        ]:
            with self.subTest(name):
                self.check_started_again(on_demand, what)

    def check_started_again(self, on_demand, what):
        """Cuts a client off in this way, kills the server and starts it again."""
        events, others = EventLog("renewed", "refusal", "reset"), EventLog("renewed", "refusal", "reset")
        with (
            served(JOINS - 2, on_demand) as (server, relay, start_again),
            open_rooms(relay.name, listeners=events.listeners) as (room,),
            open_rooms(server.name, listeners=others.listeners) as (other,),
        ):
            _, rect, line = room.objects()
            cut_off(relay, what)
            changes = [room.put(line, (), {"y": 7})]
            wait_until("the change is cut", lambda: relay.cuts)
            if what == CUT_AFTER:
                wait_until("the server has the change", lambda: other.record[-1][0] == "put")
            changes += [room.put(rect, (), {"x": 5}), room.create("rect", {"x": 7})]
            other.put(rect, (), {"x": 9}).done.result(PATIENCE)
            server.kill()
            changes.append(other.put(line, (), {"fill": "red"}))
            start_again()
            wait_until("the other is in the next room", lambda: (other.name, other.state) == ("r.2", "open"))
            relay.what_to_do = lambda text: PASS
            for change in changes:
                change.done.result(PATIENCE)
            agree(room, other)
            self.assertEqual([(it.name, it.site) for it in (room, other)], [("r.2", 3), ("r.2", 2)], "where they are")
            self.assertEqual(shown(room), [
                ("rect", [((), {"x": 9})]), ("line", [((), {"fill": "red", "x": 0, "y": 7})]),
                ("rect", [((), {"x": 5})]), ("rect", [((), {"x": 7})]),
            ], "what is shown")
            with open_rooms(server.name) as (late,):
                agree(room, other, late)
                self.assertEqual((late.name, late.site), ("r.2", 4), "where a late client is")
                for it in other, late:
                    self.assertEqual((it.record, shown(it)), (room.record, shown(room)), "what another shows")
            wait_until("the news", lambda: events.news and others.news)
            expected = [("renewed", it) for it in news([((1, 1), (3, 1))])], [("renewed", it) for it in news()]
            self.assertEqual((events.news, others.news), expected, "the news of both")

    def test_closed_on_demand(self):
        """A room on demand is closed while all are cut off. It is renewed when they come back, and they go on."""
        with (
            served(JOINS - 2, ON_DEMAND, close_after=1) as (server, relay, _),
            open_rooms(relay.name, relay.name) as (room, other),
        ):
            _, rect, line = room.objects()
            relay.what_to_do = lambda text: CUT_BEFORE
            relay.cut()
            wait_until("the room is closed", lambda: not server.open_files())
            changes = [room.put(rect, (), {"x": 5}), other.put(rect, (), {"y": 7}), other.put(line, (), {"x": 9})]
            relay.what_to_do = lambda text: PASS
            for change in changes:
                change.done.result(PATIENCE)
            agree(room, other)
            self.assertEqual((room.name, other.name), ("r.2", "r.2"), "where they are")
            self.assertEqual(room.record, other.record, "the record")
            both = [("rect", [((), {"x": 5, "y": 7})]), ("line", [((), {"x": 9})])]
            self.assertEqual((shown(room), shown(other)), (both, both), "what both show")

    def test_renewed_while_they_draw(self):
        """A room is renewed while two clients draw. Both go on, and nothing is lost or refused."""
        for name, on_demand in RENEWALS:
            with self.subTest(name):
                self.check_renewed_while_they_draw(on_demand)

    def check_renewed_while_they_draw(self, on_demand):
        """Has two clients draw until both are in the next room."""
        events = EventLog("renewed", "refusal", "reset")
        with (
            served(JOINS - 2, on_demand) as (server, _, _),
            open_rooms(server.name, server.name, listeners=events.listeners) as (room, other),
        ):
            for number in range(1, 100):
                room.put(room.objects()[-2], (), {"x": number}).done.result(PATIENCE)
                other.put(other.objects()[-1], (), {"x": number}).done.result(PATIENCE)
                if (room.name, other.name) == ("r.2", "r.2"):
                    break
            agree(room, other)
            both = [("rect", [((), {"x": number})]), ("line", [((), {"x": number})])]
            self.assertEqual((shown(room), shown(other)), (both, both), "what both show")
            wait_until("the news of both", lambda: len(events.news) == 2)
            self.assertEqual(events.news, [("renewed", it) for it in news() * 2], "the news")

    def test_renewed_before_it_came(self):
        """A client that comes after the renewal is sent on to the next room. It comes back to that, also after a
        start."""
        for name, on_demand in RENEWALS:
            with self.subTest(name):
                self.check_renewed_before_it_came(on_demand)

    def check_renewed_before_it_came(self, on_demand):
        """Has a client come after the renewal, and come back after a start."""
        events = EventLog("renewed", "refusal", "reset")
        with (
            served(JOINS, on_demand) as (server, relay, start_again),
            open_rooms(relay.name, listeners=events.listeners) as (room,),
        ):
            made = room.create("rect", {"x": 7})
            made.done.result(PATIENCE)
            relay.cut()
            wait_until("it connects again", lambda: len(relay.heads) == 2)
            room.put(made.object, (), {"x": 8}).done.result(PATIENCE)
            server.kill()
            start_again()
            room.put(made.object, (), {"y": 9}).done.result(PATIENCE)
            agree(room)
            asked = dict.fromkeys(text for text in relay.texts if text.startswith(('["join"', '["back"')))
            self.assertEqual(list(asked), ['["join","r"]', '["join","r.2"]', '["back","r.2",2]'], "how it entered")
            self.assertEqual(shown(room), [
                ("rect", [((), {"x": 0})]), ("line", [((), {"x": 0})]), ("rect", [((), {"x": 8, "y": 9})]),
            ], "what it shows")
            self.assertEqual(events.news, [], "the news")

    def test_given_site(self):
        """A client that is given its site comes back as that of the newest room, though the first one had such a site
        too. One that the newest room never had is refused."""
        for name, on_demand in RENEWALS:
            with self.subTest(name), served(JOINS, on_demand) as (server, relay, _):
                with open_rooms(server.name, server.name) as (_, room):
                    before = room.name, room.site
                with open_rooms(relay.name, site=3) as (room,):
                    self.assertEqual(((room.name, room.site), len(room.record)), (before, 5), "who it is")
                asked = [text for text in relay.texts if text.startswith(('["join"', '["back"'))]
                self.assertEqual(asked, ['["back","r",3]', '["join","r"]', '["back","r.2",3]'], "how it entered")
                with Room(server.name, "r", site=4) as room:
                    refusal = expect_error("a site that only the first room had", Refused, room.entered, PATIENCE)
                    self.assertEqual(refusal.word, "no-such-site", "its word")
