"""Clients of a room that is renewed: they go on in the next one, and no work is lost."""

import contextlib
import os
import random
import time
import unittest

from grace import Refused, Renewed, Room
from grace.room_names import is_after, successor_of
from grace_client import Mistake, Terminal
from lib.checks import check
from lib.scripted_server import ScriptedServer
from renewing_server import RenewingServer
from rooms import PATIENCE, EventLog, expect_error, versions_of, wait_until

RETRIES = 0.005, 0.01
GOES_ON = "This drawing goes on in another room."
# The record of a room in which somebody has made an object and put a value.
RECORD = """\
["join",1]
["new",[1,1],[],"rect",[["x",0]]]
["put",[1,2],[[1,1]],[1,1],[],[["x",1]]]
"""


class Client(Room):
    """A client that records its renewals, refusals and new names."""

    def __init__(self, server, **options):
        self.events = EventLog("renewed", "refusal", "change")
        super().__init__(server.name, "r", retry_seconds=RETRIES, listeners=self.events.listeners, **options)
        check.assertTrue(self.entered(PATIENCE), "whether the client is in the room")

    @property
    def refused(self):
        """The words of the refusals."""
        return [news.refusal.word for news in self.events.of("refusal")]


@contextlib.contextmanager
def renewing(count, **options):
    """Yields a server and this many clients."""
    with RenewingServer() as server, contextlib.ExitStack() as stack:
        yield server, *(stack.enter_context(Client(server, **options)) for _ in range(count))


def is_in(room, name):
    """Waits until a client is in a room, and has sent all."""
    wait_until(f"the client is in {name}", lambda: room.state == "open" and room.name == name and not room.pending)


def news(old_room, new_room, copies=()):
    """Returns the news of a renewal by which nothing was left behind."""
    return Renewed(old_room, new_room, GOES_ON, list(copies), None)


def shown(room):
    """Returns the objects as kind and versions."""
    return [(room.kind(name), versions_of(room, name)) for name in room.objects()]


def may_lag(room, server):
    """Returns whether a client can go on after one more renewal: what it has to read is then still open."""
    behind = list(reversed(server.rooms)).index(room.name)
    return behind == 0 or behind == 1 and room.has_ended


def draw_once(source, room, value):
    """Makes a random change with this value. Returns whether it made an object. The room may be renewed at any moment:
    a version then stands for the one that it became. A client that left its work behind is in no room for a moment."""
    with contextlib.suppress(Refused):
        objects = [name for name in room.objects() if any(not it.is_gone for it in room.versions(name))]
        if not objects or source.random() < 0.33:
            room.create("rect", {"value": value})
            return True
        name = source.choice(objects)
        room.put(name, source.choice([it for it in room.versions(name) if not it.is_gone]), {"x": value})
    return False


class TestRenewals(unittest.TestCase):
    def agree(self, server, *rooms):
        """Waits until clients have what the newest room has, and expects that they show the same as it."""

        def is_current(room):
            newest = server.newest
            return (room.name == newest.name and not room.pending and not room.has_news and room.state == "open"
                    and len(room.record) == len(newest.record))

        wait_until("all have the record", lambda: all(map(is_current, rooms)))
        newest = server.newest
        for room in rooms:
            self.assertEqual(room.record, newest.record, "the record")
            self.assertEqual(room.objects(), newest.drawing.names(), "the objects")
            for name in room.objects():
                self.assertEqual(versions_of(room, name), versions_of(newest.drawing, name), f"object {name}")

    @contextlib.contextmanager
    def cut_at_put(self, server, room):
        """Yields a put of a client's only object that the client could not send. Meanwhile it does not come back."""
        made = room.create("rect", {"x": 0})
        self.agree(server, room)
        with server.lock:
            server.cut()
            yield room.put(made.object, (), {"x": 1})

    def test_renewed_while_it_looks(self):
        """A client that only looks learns of the end by a page. Names, versions and changes that it holds go on."""
        with renewing(2) as (server, room, other):
            gone = room.create("line")
            room.drop(gone.object, gone.version)
            made = room.create("rect", {"x": 0})
            self.agree(server, room, other)
            old_name, looked = made.object, other.versions(made.object)[0]
            server.renew()
            self.agree(server, room, other)
            wait_until("the news", lambda: room.events.of("renewed") and other.events.of("renewed"))
            self.assertEqual(
                (room.events.of("renewed"), other.events.of("renewed")), ([news("r", "r.2")],) * 2, "the news",
            )
            renamed = [pair for it in other.events.of("change") for pair in it.renamed]
            self.assertEqual((old_name, renamed, made.object), ((1, 3), [((1, 3), (1, 1))], (1, 1)), "the names")
            successors = other.successors(made.object, looked)
            self.assertEqual(successors, other.versions((1, 1)), "what became of a version")
            self.assertEqual(room.successors(gone.object, gone.version), [], "what became of one that is gone")
            room.put(made.object, made.version, {"x": 5})
            other.put(old_name, looked, {"y": 7})
            self.agree(server, room, other)
            self.assertEqual(versions_of(room, (1, 1)), [((), {"x": 5, "y": 7})], "what both show")
            refusal = expect_error("one that is gone", Refused, room.put, gone.object, gone.version, {"x": 1})
            self.assertEqual(refusal.word, "no-such-version", "the refusal")
            self.assertEqual(room.refused + other.refused, [], "the refusals of the server")

    def test_unsent_work(self):
        """The room ends while a client has work that was not sent. Each change settles, and nothing is lost."""
        with renewing(1) as (server, room):
            made, line = room.create("rect", {"x": 0}), room.create("line", {"x": 0})
            room.settled(PATIENCE)

            def end(text):
                if not text.startswith('["put"'):
                    return
                server.before = lambda text: None
                server.add(("join", 2))
                server.add(("put", (2, 1), ((1, 2),), (1, 2), (), (("x", 9),)))
                server.renew()

            with server.lock:
                server.before = end
                changes = [room.put(made.object, (), {"x": 1}), room.put(made.object, (), {"x": 2, "y": 3}),
                           room.put(line.object, (), {"x": 5}), room.create("rect", {"x": 7})]
                changes.append(room.put(changes[3].object, (), {"fill": "red"}))
            for change in changes:
                change.done.result(PATIENCE)
            self.agree(server, room)
            self.assertEqual(shown(room), [
                ("rect", [((), {"x": 2, "y": 3})]), ("line", [((), {"x": 9})]), ("line", [((), {"x": 5})]),
                ("rect", [((), {"fill": "red", "x": 7})]),
            ], "what is shown")
            self.assertEqual(server.asked("new", "put")[2:], [
                '["put",3,[[1,2]],[1,1],[],[["x",1]]]', '["put",1,[[1,2]],[1,1],[],[["x",2],["y",3]]]',
                '["new",2,[[1,2],[2,1]],"line",[["x",5]]]',
                '["new",3,[[1,2],[2,2]],"rect",[["fill","red"],["x",7]]]',
            ], "what was sent")
            wait_until("the news", lambda: room.events.of("renewed"))
            self.assertEqual(room.events.of("renewed"), [news("r", "r.2", [((1, 2), (2, 2))])], "the news")
            objects = [change.object for change in changes]
            self.assertEqual(objects, [(1, 1), (1, 1), (2, 2), (2, 3), (2, 3)], "the objects of the changes")
            self.assertEqual(room.refused, [], "the refusals")

    def test_renewed_before_it_came(self):
        """A client that comes later is sent on to the newest room, also as a site."""
        with renewing(0) as (server,):
            server.add(("join", 1))
            server.add(("new", (1, 1), (), "rect", (("x", 0),)))
            server.renew()
            server.renew()
            with Client(server) as room:
                self.agree(server, room)
                self.assertEqual(server.asked("join"), ['["join","r"]', '["join","r.3"]'], "what it asks")
                self.assertEqual(room.events.of("renewed"), [], "the news")
            with Client(server, site=2) as room:
                self.agree(server, room)
                self.assertEqual(
                    (room.site, server.asked("back")), (2, ['["back","r",2]', '["back","r.3",2]']), "the site",
                )

    def test_renewed_while_it_was_away(self):
        """The room ends while the connection is lost. The client comes back to it, reads it to its end, and goes on."""
        with renewing(1) as (server, room):
            with self.cut_at_put(server, room):
                server.add(("join", 2))
                server.add(("put", (2, 1), ((1, 1),), (1, 1), (), (("y", 9),)))
                server.renew()
            self.agree(server, room)
            self.assertEqual(shown(room), [("rect", [((), {"x": 1, "y": 9})])], "what is shown")
            entered = ['["join","r"]', '["back","r",1]', '["leave"]', '["join","r.2"]']
            self.assertEqual(server.asked("join", "back", "leave"), entered, "how it entered")

    def test_renewed_twice(self):
        """The next room ends too before the client is in it. The client reads it as another site, and goes on."""
        with renewing(2) as (server, room, other):
            made, line = room.create("rect", {"x": 0}), room.create("line", {"x": 0})
            self.agree(server, room, other)
            other.close()

            def end(text):
                if text == '["join","r.2"]':
                    server.before = lambda text: None
                    server.add(("join", 2))
                    server.add(("put", (2, 1), ((1, 2),), (1, 2), (), (("x", 9),)))
                    server.renew()

            with server.lock:
                server.cut()
                room.put(made.object, (), {"x": 1})
                room.put(line.object, (), {"x": 2})
                added = room.create("rect", {"x": 3})
                server.before = end
                server.renew()
            self.agree(server, room)
            self.assertEqual(shown(room), [
                ("rect", [((), {"x": 1})]), ("line", [((), {"x": 9})]), ("line", [((), {"x": 2})]),
                ("rect", [((), {"x": 3})]),
            ], "what is shown")
            wait_until("the news", lambda: len(room.events.of("renewed")) == 2)
            both = [news("r", "r.2"), news("r.2", "r.3", [((1, 2), (2, 2))])]
            self.assertEqual(room.events.of("renewed"), both, "the news")
            self.assertEqual(versions_of(room, added.object), [((), {"x": 3})], "a change that it holds")
            entered = ['["back","r",1]', '["join","r.2"]', '["back","r.2",1]', '["join","r.3"]']
            self.assertEqual(server.asked("join", "back")[-4:], entered, "how it entered")

    def test_old_room_is_closed(self):
        """The old room can no longer be read. The client tells what it could not take along, and enters the newest
        one."""
        with renewing(1) as (server, room):
            with self.cut_at_put(server, room) as lost:
                server.renew()
                server.renew()
            self.agree(server, room)
            self.assertEqual(lost.done.exception(PATIENCE).word, "renewed", "the refusal")
            words = "This drawing went on in another room without your last changes."
            wait_until("the news", lambda: room.refused)
            expected = [Renewed("r", "r.3", words, [], RECORD)]
            self.assertEqual((room.events.of("renewed"), room.refused), (expected, ["renewed"]), "the news")
            self.assertEqual(shown(room), [("rect", [((), {"x": 0})])], "what is shown")

    def test_renewed_during_a_hold(self):
        """While there is a hold, the client stays in the old room. What it draws then goes along when the hold is
        released."""
        with renewing(1) as (server, room):
            made = room.create("rect", {"x": 0})
            self.agree(server, room)
            release = room.hold()
            with server.lock:
                server.add(("join", 2))
                server.add(("put", (2, 1), ((1, 1),), (1, 1), (), (("x", 9),)))
                server.renew()
            wait_until("the end", lambda: room.has_ended)
            change = room.put(made.object, made.version, {"x": 5})
            wait_until("the client has left", lambda: server.asked("leave"))
            self.assertEqual((room.name, shown(room)), ("r", [("rect", [((), {"x": 5})])]), "what is shown meanwhile")
            release()
            change.done.result(PATIENCE)
            self.agree(server, room)
            self.assertEqual(
                shown(room), [("rect", [((), {"x": 9})]), ("rect", [((), {"x": 5})])], "what is shown then",
            )
            wait_until("the news", lambda: room.events.of("renewed"))
            self.assertEqual(room.events.of("renewed"), [news("r", "r.2", [((1, 1), (2, 1))])], "the news")
            self.assertEqual(change.object, (2, 1), "the object of the change")

    def test_next_room_opens_later(self):
        """The next room is not open yet. The client asks again."""
        with renewing(1) as (server, room):
            room.create("rect").done.result(PATIENCE)
            rooms = {}

            def answer(text):
                if text == '["join","r.2"]':
                    server.rooms = rooms if len(server.asked("join")) > 2 else {"r": rooms["r"]}

            with server.lock:
                server.before = answer
                server.renew()
                rooms.update(server.rooms)
            self.agree(server, room)
            self.assertEqual(server.asked("join"), ['["join","r"]', *['["join","r.2"]'] * 2], "the attempts")

    def test_next_room_is_never_opened(self):
        """The server never opens the next room. After a while the client begins anew in the first one."""
        with renewing(1, back_seconds=0.1) as (server, room):
            resets = []
            room.on("reset", lambda news: resets.append(news.text))
            made = room.create("rect", {"x": 0})
            self.agree(server, room)

            def end(text):
                if text.startswith('["put"'):
                    server.before = lambda text: None
                    server.renew()
                    server.rooms = RenewingServer().rooms

            server.before = end
            change = room.put(made.object, (), {"x": 1})
            self.assertEqual(change.done.exception(PATIENCE).word, "another-room", "the refusal")
            is_in(room, "r")
            self.agree(server, room)
            self.assertEqual(resets, [RECORD], "the text")

    def test_lost_before_it_read(self):
        """The room goes on in a shorter one after the client has joined it, and before it has read an entry."""
        with RenewingServer() as server:
            server.add(("join", 1))
            server.add(("new", (1, 1), (), "rect", (("x", 0),)))
            for number in (2, 3, 4):
                server.add(("put", (1, number), ((1, number - 1),), (1, 1), (), (("x", number),)))

            def end(text):
                if text.startswith('["pull"'):
                    server.before = lambda text: None
                    server.renew()
                    server.cut()

            server.before = end
            with Client(server) as room:
                self.agree(server, room)

    def test_another_used_the_site(self):
        """Another client was in the old room as this site, and made changes. The client's own go on under another
        site."""
        with renewing(1) as (server, room):
            with self.cut_at_put(server, room):
                server.add(("put", (1, 2), ((1, 1),), (1, 1), (), (("y", 9),)))
                server.renew()
            self.agree(server, room)
            self.assertEqual(shown(room), [("rect", [((), {"x": 1, "y": 9})])], "what is shown")

    def test_site_in_use(self):
        """The site is still in use, and the room has ended. The client reads it as another site."""
        with renewing(2, back_seconds=0.1) as (server, room, other):
            made = room.create("rect", {"x": 0})
            self.agree(server, room, other)
            other.close()
            with server.lock:
                server.cut()
                server.newest.sites.add(1)
                room.put(made.object, (), {"x": 1})
                server.renew()
            self.agree(server, room)
            self.assertEqual(shown(room), [("rect", [((), {"x": 1})])], "what is shown")
            entered = ['["join","r"]', '["back","r",1]', '["back","r",2]', '["join","r.2"]']
            self.assertEqual(server.asked("join", "back")[-4:], entered, "how it entered")

    def test_something_else(self):
        """The next room draws something else. The client leaves its work behind, as it cannot tell what corresponds."""
        with renewing(1) as (server, room):
            made = room.create("rect", {"x": 0})
            self.agree(server, room)

            def end(text):
                if text.startswith('["put"'):
                    server.before = lambda text: None
                    server.renew()
                    server.newest.record[1] = ("new", (1, 1), (), "oval", (("x", 0),))

            server.before = end
            change = room.put(made.object, (), {"x": 1})
            self.assertEqual(change.done.exception(PATIENCE).word, "renewed", "the refusal")
            is_in(room, "r.2")
            self.assertEqual(shown(room), [("oval", [((), {"x": 0})])], "what is shown")
            wait_until("the news", lambda: room.events.of("renewed"))
            last = room.events.of("renewed")[0].text.splitlines()[-1]
            self.assertEqual(last, '["put",[1,2],[[1,1]],[1,1],[],[["x",1]]]', "the end of the text")

    def test_all_rooms_are_lost(self):
        """The server has lost all rooms but an empty first one. The client begins anew in that."""
        with renewing(1) as (server, room):
            resets = []
            room.on("reset", lambda news: resets.append(news.text))
            room.create("rect").done.result(PATIENCE)
            server.renew()
            is_in(room, "r.2")
            self.agree(server, room)
            with server.lock:
                server.rooms = RenewingServer().rooms
                server.cut()
            is_in(room, "r")
            wait_until("the news", lambda: resets)
            self.assertEqual(resets, ['["join",1]\n["new",[1,1],[],"rect",[]]\n["join",2]\n'], "the text")
            self.agree(server, room)

    def test_at_a_terminal(self):
        """A terminal, which holds its view, lets a room go that has ended. Its numbers are good again after a look."""
        with renewing(2) as (server, room, other):
            made = other.create("rect", {"x": 0, "y": 0})
            self.agree(server, room, other)
            terminal = Terminal(room)
            terminal.look()
            other.put(made.object, made.version, {"x": 9})
            self.agree(server, other)

            def end(text):
                if text.startswith('["put"'):
                    server.before = lambda text: None
                    server.renew()

            server.before = end
            terminal.put(1, 1, {"x": 5})
            wait_until("the renewal", lambda: terminal.is_old)
            mistake = expect_error("a number of the last look", Mistake, terminal.put, 1, 1, {"x": 6})
            self.assertEqual(str(mistake), "the drawing goes on in another room: show it again", "its words")
            terminal.look()
            terminal.put(2, 1, {"y": 7})
            self.agree(server, other)
            both = [("rect", [((), {"x": 9, "y": 0})]), ("rect", [((), {"x": 5, "y": 7})])]
            self.assertEqual(shown(other), both, "what the other shows")

    def test_room_of_another_drawing(self):
        """A server that names a room of another drawing, or an earlier one, is not followed."""
        for name in "s.2", "r", "r.1", "r.02", "r.2.3", ".2", "r.1000000":
            with ScriptedServer([f'["renewed",0,"{name}"]']) as server, Room(server.name, "r") as room:
                wait_until("the end", lambda: room.state == "closed")
                self.assertEqual(type(room.fault).__name__, "ProtocolFault", f"the fault with {name}")

    def test_names_of_renewed_rooms(self):
        """The names of successors, and which room comes after which."""
        long = "a" * 62
        rooms = ["r", "r.2", "r.9", "r.99", "r.999998", "r.999999", long, f"{long}aa"]
        expected = ["r.2", "r.3", "r.10", "r.100", "r.999999", None, f"{long}.2", None]
        self.assertEqual(list(map(successor_of, rooms)), expected, "the successors")
        pairs = [
            ("r.2", "r"), ("r.10", "r.9"), ("r.2", "r.2"), ("r", "r.2"), ("s.2", "r"), ("r.01", "r"), ("r.2", "r-2"),
        ]
        self.assertEqual([is_after(*pair) for pair in pairs], [True, True, *[False] * 5], "which come after")

    def test_at_random(self):
        """Clients draw while the room is renewed and connections are cut at random. Each object is there once, and its
        copies. If rooms may be closed before a client has read them, each object that is not there was refused."""
        for name, are_read in [("old rooms stay open", True), ("old rooms are closed", False)]:
            with self.subTest(name):
                self.check_at_random(are_read)

    def check_at_random(self, are_read):
        """Has three clients draw. `are_read` says that a room is closed only once all have read it."""
        seed = int(os.environ.get("SEED", time.time() % 1_000_000))
        print(f"renewed at random: seed {seed}", flush=True)
        source = random.Random(seed)
        with renewing(3) as (server, *rooms):
            created, releases = [], []
            for value in range(300):
                room = source.choice(rooms)
                if draw_once(source, room, value):
                    created.append(value)
                if source.random() < 0.12:
                    releases.append(room.hold())
                if source.random() < 0.17:
                    while releases:
                        releases.pop()()
                if source.random() < 0.04:
                    server.cut()
                with server.lock:
                    if source.random() < 0.04 and (not are_read or all(may_lag(room, server) for room in rooms)):
                        server.renew()
                if source.random() < 0.5:
                    time.sleep(source.random() / 250)
            while releases:
                releases.pop()()
            self.agree(server, *rooms)
            versions = [rooms[0].versions(name)[0] for name in rooms[0].objects()]
            by_value = [version.attributes["value"] for version in versions]
            refusals = [it for room in rooms for it in room.events.of("refusal")]
            refused = {it.change.version.attributes.get("value") for it in refusals}
            lost = [value for value in created if value not in by_value and value not in refused]
            copies = sum(len(it.copies) for room in rooms for it in room.events.of("renewed"))
            print(f"{len(server.rooms) - 1} renewals, {len(created)} objects, {copies} copies, {len(refused)} refused")
            self.assertEqual(lost, [], "what is lost")
            if are_read:
                self.assertEqual(
                    (len(by_value), refused), (len(created) + copies, set()), "the objects, and the refusals",
                )

    def test_full_room(self):
        """A full room is only looked at. When it is renewed, the client joins the next one, and can draw."""
        with renewing(1) as (server, other):
            made = other.create("rect", {"x": 0})
            self.agree(server, other)
            server.add(("join", 2))
            server.is_full = True
            with Client(server, look_if_full=True) as room:
                self.assertEqual(
                    (room.is_read_only, room.site, room.objects()), (True, None, [made.object]), "what it is",
                )
                self.assertEqual(list(server.newest.sites), [1], "the sites in use between two looks")
                other.put(made.object, (), {"x": 1})
                self.agree(server, other)
                with server.lock:
                    server.is_full = False
                    server.renew()
                is_in(room, "r.2")
                self.assertEqual((room.is_read_only, room.site is not None), (False, True), "what it is then")
                room.create("line")
                self.agree(server, room, other)
                self.assertEqual(room.refused + other.refused, [], "what was refused")
