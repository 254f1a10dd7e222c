"""Lost connections: no change is lost, and none is made twice."""

import os
import random
import time
import unittest
from contextlib import contextmanager

from grace import Refused, Room
from grace.forms import frozen
from relay import CUT_AFTER, CUT_BEFORE, PASS, Relay
from rooms import PATIENCE, EventLog, agree, wait_until, open_rooms, versions_of
from lib.serving import Server


@contextmanager
def cut(**options):
    """Yields a server, a relay before it, a client through the relay and one that connects directly."""
    with Server(1000, 64) as server, Relay(server.address[1]) as relay:
        with open_rooms(relay.name, **options) as (room,), open_rooms(server.name) as (other,):
            yield server, relay, room, other


def lose(relay, room):
    """Cuts the connection of a client. The relay then cuts each new one, until it is told otherwise."""
    relay.what_to_do = lambda text: CUT_BEFORE
    relay.cut()
    wait_until("the connection is lost", lambda: room.state != "open")


def operations(room):
    """Returns the entries of the record that are not joins."""
    return [entry for entry in room.record if entry[0] != "join"]


def sites(room):
    """Returns the sites of the joins in the record."""
    return [entry[1] for entry in room.record if entry[0] == "join"]


def draw(source, author, value):
    """Makes a random change. Returns the value that it puts, or None for a drop."""
    if source.random() < 0.3:
        time.sleep(source.random() / 30)
    name = source.choice(author.objects())
    alive = [version for version in author.versions(name) if not version.is_gone]
    what = source.random() if alive else 0
    if what < 0.125:
        author.create("rect", {"value": value})
    elif what < 0.25:
        author.drop(name, source.choice(alive))
        return None
    else:
        author.set(name, source.choice(alive), source.choice("xy"), value)
    return value


class TestLostConnections(unittest.TestCase):
    def test_cut_requests(self):
        """The relay cuts each request in turn, before or after it reached the server. The client keeps its site."""
        for what in (CUT_BEFORE, CUT_AFTER):
            with self.subTest(what):
                self.check_cut_requests(what)

    def check_cut_requests(self, what):
        """Cuts each request in this way."""
        with cut() as (_, relay, room, other):
            relay.cut_once('["new"', what)
            made = room.create("rect", {"x": 0})
            made.done.result(PATIENCE)
            relay.cut_once('["put"', what)
            put = room.put(made.name, (), {"x": 5, "y": 7})
            behind = room.set(made.name, put.version, "fill", "red")
            behind.done.result(PATIENCE)
            line = room.create("line")
            line.done.result(PATIENCE)
            relay.cut_once('["drop"', what)
            room.drop(line.name, ()).done.result(PATIENCE)
            relay.cut_once('["wait"', what)
            room.set(made.name, (), "y", 8).done.result(PATIENCE)
            wait_until("a wait was cut", lambda: relay.cuts == 4)
            relay.cut_once('["back"', what)
            relay.cut()
            wait_until("a coming back was cut", lambda: relay.cuts == 5)
            room.set(made.name, (), "x", 6)
            agree(room, other)
            self.assertEqual([(entry[0], entry[1], entry[-1]) for entry in operations(other)], [
                ("new", (1, 1), (("x", 0),)), ("put", (1, 2), (("x", 5), ("y", 7))),
                ("put", (1, 3), (("fill", "red"),)),
                ("new", (1, 4), ()), ("drop", (1, 5), ()), ("put", (1, 6), (("y", 8),)), ("put", (1, 7), (("x", 6),)),
            ], "the changes")
            one = [((), {"fill": "red", "x": 6, "y": 8})]
            self.assertEqual(
                (versions_of(room, made.name), versions_of(other, made.name)), (one, one), "what both show",
            )
            self.assertEqual((room.site, sites(other)), (1, [1, 2]), "the sites")

    def test_cut_joins(self):
        """A join whose reply is lost uses up a site; a join that did not reach the server does not."""
        for what in (CUT_BEFORE, CUT_AFTER):
            with self.subTest(what), cut() as (_, relay, *_):
                relay.cut_once('["join"', what)
                with open_rooms(relay.name) as (late,):
                    self.assertEqual(late.site, 4 if what == CUT_AFTER else 3, "the site")

    def test_drawn_apart(self):
        """Changes made without a connection are sent once there is one. They conflict with concurrent changes of
        others."""
        with cut() as (_, relay, room, other):
            made = room.create("rect", {"x": 0})
            agree(room, other)
            lose(relay, room)
            put = room.set(made.name, (), "x", 5)
            second = room.create("line")
            other.set(made.name, (), "x", 9).done.result(PATIENCE)
            self.assertEqual(versions_of(room, made.name), [((), {"x": 5})], "what is shown meanwhile")
            relay.what_to_do = lambda text: PASS
            agree(room, other)
            self.assertEqual((put.name, second.name), ((1, 2), (1, 3)), "the names")
            two = [(((1, 2),), {"x": 5}), (((2, 1),), {"x": 9})]
            self.assertEqual(
                (versions_of(room, made.name), versions_of(other, made.name)), (two, two), "what both show",
            )

    def test_old_site_in_use(self):
        """If the old site is in use, the client gets a new site, and its changes get new names."""
        with cut(back_seconds=0.3) as (server, relay, room, other):
            made = room.create("rect", {"x": 0})
            agree(room, other)
            lose(relay, room)
            put = room.set(made.name, (), "x", 5)
            line = room.create("line")
            renamed = []
            room.on("change", lambda news: renamed.extend(news.renamed))
            with open_rooms(server.name, site=1) as (stranger,):
                stranger.set(made.name, (), "x", 1).done.result(PATIENCE)
                relay.what_to_do = lambda text: PASS
                wait_until("the client is in the room", lambda: room.state == "open" and room.site == 3)
                agree(room, other)
            pairs = [((1, 2), (3, 1)), ((1, 3), (3, 2))]
            self.assertEqual((put.name, line.name, renamed), ((3, 1), (3, 2), pairs), "the names")
            two = [(((1, 2),), {"x": 1}), (((3, 1),), {"x": 5})]
            self.assertEqual(
                (versions_of(room, made.name), versions_of(other, made.name)), (two, two), "what both show",
            )

    def test_server_started_anew(self):
        """A restarted server has a new room. The client drops the state of the old one and reports it with its text."""
        with cut() as (server, relay, room, other):
            events = EventLog("reset", "refusal", "progress")
            for event, listener in events.listeners.items():
                room.on(event, listener)
            made = room.create("rect")
            agree(room, other)
            other.close()
            server.process.kill()
            server.process.wait()
            wait_until("the connection is lost", lambda: room.state != "open")
            lost = room.set(made.name, (), "x", 1)
            with Server(10, 4) as anew:
                relay.port = anew.address[1]
                self.assertEqual(lost.done.exception(PATIENCE).word, "another-room", "the refusal")
                self.assertTrue(room.entered(PATIENCE), "whether it is back")
                self.assertEqual(
                    (room.objects(), room.record, room.has(made.name)), ([], [("join", 1)], False), "what is left",
                )
                room.create("line").done.result(PATIENCE)
                room.close()
            lines = [
                '["join",1]', '["join",2]', '["new",[1,1],[],"rect",[]]',
                '["put",[1,2],[[1,1]],[1,1],[],[["x",1]]]', "",
            ]
            self.assertEqual([news.text for news in events.of("reset")], ["\n".join(lines)], "the texts of the resets")
            # The progress of the first join may be told after `on`.
            order = [event for event, _ in events.news]
            self.assertEqual(order[order.index("reset"):], ["reset", "refusal", "progress", "progress"], "the order")

    def test_closed_with_changes(self):
        """A close gives up unanswered changes and reports them."""
        with cut() as (_, relay, room, _):
            relay.what_to_do = lambda text: CUT_BEFORE
            relay.cut()
            change = room.create("rect")
            room.close()
            self.assertEqual(change.done.exception(0).word, "closed", "the refusal")
            self.assertTrue(room.settled(0), "whether it was settled")

    def test_cuts_by_chance(self):
        """Two clients draw while the connection of one is cut at random messages."""
        seed = int(os.environ.get("SEED", time.time() % 1_000_000))
        print(f"cuts by chance: seed {seed}", flush=True)
        source = random.Random(seed)
        chances = [CUT_BEFORE, CUT_AFTER, *[PASS] * 6]
        events = EventLog("refusal")
        with cut() as (server, relay, room, other):
            room.on("refusal", events.listeners["refusal"])
            other.create("rect")
            agree(room, other)
            relay.what_to_do = lambda text: source.choice(chances) if relay.cuts < 60 else PASS
            expected = [draw(source, source.choice([room, room, other]), value) for value in range(120)]
            agree(room, other)
            values = sorted(entry[-1][0][1] for entry in operations(other) if entry[0] != "drop" and entry[-1])
            self.assertEqual(values, [value for value in expected if value is not None], "the values, each once")
            self.assertEqual(sum(entry[0] == "drop" for entry in operations(other)), expected.count(None), "the drops")
            self.assertEqual((sites(other), events.news), ([1, 2], []), "the sites and the refusals")
            asker = server.client()
            asker.reply_to(["join", "r"])
            for name in other.objects():
                self.assertEqual(versions_of(room, name), versions_of(other, name), f"object {name} of both")
                *_, versions = frozen(asker.reply_to(["show", name]))
                by_server = [(identifier, it if it == "gone" else dict(it)) for identifier, it in versions]
                self.assertEqual(by_server, versions_of(room, name), f"object {name} by the server")
            self.assertGreaterEqual(relay.cuts, 6, f"the connection was cut {relay.cuts} times")

    def test_given_site_cut_while_it_loads(self):
        """The connection is cut while a client loads that was given its site. It comes back as that site."""
        with Server(3, 4) as server, Relay(server.address[1]) as relay:
            with open_rooms(server.name) as (first,):
                for number in range(100):
                    first.create("rect", {"x": number})
                agree(first)
            relay.cut_once('["pull",64]', CUT_BEFORE)
            with open_rooms(relay.name, site=1) as (room,):
                self.assertEqual(
                    (relay.cuts, room.site, sites(room), len(room.objects())), (1, 1, [1], 100), "who it is",
                )
                room.create("line").done.result(PATIENCE)
                self.assertEqual(operations(room)[-1][1], (1, 101), "the next name")

    def expect_refusal(self, what, call, word):
        """Expects that the call is refused with this word."""
        try:
            call()
        except Refused as refusal:
            self.assertEqual(refusal.word, word, what)
        else:
            self.fail(f"{what}: it was not refused")

    def test_full_room_is_shown(self):
        """A room whose joins are used up is shown, and followed. Its sites stay free for those whose they are."""
        with Server(10, 4) as server:
            owner = server.client()
            for site in range(1, 257):
                self.assertEqual(owner.reply_to(["join", "r"])[2], site, "a join")
                owner.ask(["leave"])
            owner.expect_reply(["back", "r", 1], '["back",256,1,0]')
            owner.ask(["new", 1, [], "rect", [["x", 1]]])
            owner.ask(["leave"])
            with Room(server.name, "r") as closed:
                self.expect_refusal("without the option", lambda: closed.entered(PATIENCE), "room-full")
            with open_rooms(server.name, look_if_full=True) as (room,):
                self.assertEqual(
                    (room.state, room.is_read_only, room.site, room.words),
                    ("open", True, None, "The room is full. You can look at it, but not change it."),
                    "what it is",
                )
                self.assertEqual(room.objects(), [(1, 1)], "what it shows")
                self.expect_refusal("a change", lambda: room.create("rect"), "read-only")
                # Between its looks all sites are free.
                wait_until("the owner is in", lambda: owner.reply_to(["back", "r", 1])[0] == "back")
                owner.ask(["put", 2, [[1, 1]], [1, 1], [], [["x", 2]]])
                wait_until("the news", lambda: versions_of(room, (1, 1)) == [((), {"x": 2})])
                self.assertTrue(room.refresh(PATIENCE), "whether a refresh is answered")
                self.assertEqual((room.state, room.is_read_only), ("open", True), "what it is then")
            owner.close()
