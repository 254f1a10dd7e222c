"""Clients in one room of `grace serve`: their shared drawing, and refusals."""

import re
import signal
import sys
import textwrap
import threading
import time
import unittest

import grace
from grace import LIMITS, Refused, Room
from rooms import (
    PATIENCE, EventLog, agree, expect_error, open_rooms, server_with_rooms, stop, versions_of, wait_until,
)
from lib.scripted_server import ScriptedServer
from lib.serving import Server, free_address


class TestRooms(unittest.TestCase):
    def test_two_versions(self):
        """Two clients change one attribute concurrently."""
        with server_with_rooms(2) as (_, first, second):
            made = first.create("rect", {"x": 0})
            agree(first, second)
            kind_and_versions = second.kind(made.name), versions_of(second, made.name)
            self.assertEqual(kind_and_versions, ("rect", [((), {"x": 0})]), "what the second shows")
            with second.hold():
                first.set(made.name, (), "x", 5)
                agree(first, second)
                held_back = second.has_news, versions_of(second, made.name)
                self.assertEqual(held_back, (True, [((), {"x": 0})]), "what is held back")
                change = second.set(made.name, (), "x", 9)
                self.assertEqual(change.version.id, (), "the version that a change made")
                change.done.result(PATIENCE)
            agree(first, second)
            two = [(((1, 2),), {"x": 5}), (((2, 1),), {"x": 9})]
            self.assertEqual(
                (versions_of(first, made.name), versions_of(second, made.name)), (two, two), "what both show",
            )
            self.assertEqual(second.record[-1], ("put", (2, 1), ((1, 1),), (1, 1), (), (("x", 9),)), "the entry")
            successors = [it.id for it in second.successors(made.name, change.version)]
            self.assertEqual(successors, [((2, 1),)], "the successors of the change")
            following = first.set(made.name, [[2, 1]], "fill", "red")
            self.assertEqual(following.version.id, ((1, 3), (2, 1)), "the next version's name")
            agree(first, second)
            after = [two[0], (((1, 3), (2, 1)), {"fill": "red", "x": 9})]
            for room in first, second:
                self.assertEqual(versions_of(room, made.name), after, "what both show then")

    def test_many_changes_in_one_go(self):
        """Many changes without waiting for replies arrive in order, each once, with their exact values."""
        with server_with_rooms(2) as (_, first, second):
            made, version = first.create("rect"), ()
            for x in range(20):
                version = first.set(made.name, version, "x", x).version
            values = {"least": -(2**63), "most": 2**63 - 1, "name": "é\u2028\"\\😀", "text": "5"}
            other = first.create("line", values)
            agree(first, second)
            self.assertEqual(first.pending, [], "what waits")
            self.assertEqual(versions_of(second, made.name), [((), {"x": 19})], "what the other shows of one")
            self.assertEqual(versions_of(second, other.name), [((), values)], "what the other shows of two")
            self.assertEqual((first.objects(), second.objects()), ([(1, 1), (1, 22)],) * 2, "the objects")

    def test_dropped(self):
        """One client drops a version while another, who has not seen that, changes it."""
        with server_with_rooms(2) as (_, first, second):
            made = first.create("rect", {"x": 0})
            agree(first, second)
            with second.hold():
                drop = first.drop(made.name, ())
                self.assertEqual((drop.version.is_gone, drop.version.attributes), (True, {}), "the dropped version")
                agree(first, second)
                put = second.put(made.name, (), {"x": 5, "y": 7})
                agree(first, second)
            both = [((drop.name,), "gone"), ((put.name,), {"x": 5, "y": 7})]
            agree(first, second)
            self.assertEqual(
                (versions_of(first, made.name), versions_of(second, made.name)), (both, both), "what both show",
            )
            gone = first.versions(made.name)[0]
            self.assertEqual(
                expect_error("a put", Refused, first.put, made.name, gone, {"x": 1}).word, "gone", "the refusal",
            )

    def test_refused_before_it_is_sent(self):
        """The module refuses invalid changes at once, with the key and the reason, and sends nothing."""
        long = "é" * 129
        with server_with_rooms(1) as (_, room):
            made = room.create("rect")
            put = lambda attributes: lambda: room.put(made.name, (), attributes)
            for call, kind, message in [
                (put({"x": 0.5}), TypeError, "x: a value must be an integer or a string, not 0.5"),
                (put({"x": True}), TypeError, "x: a value must be an integer or a string, not True"),
                (put({"x": None}), TypeError, "x: a value must be an integer or a string, not None"),
                (put({"x": 2**63}), ValueError, f"x: {2**63} is outside the 64-bit range from -2^63 to 2^63 - 1"),
                (put({"name": long}), ValueError, "name: the string has 258 bytes in UTF-8; the limit is 256"),
                (put({"name": "ab\ud83dc"}), ValueError, "name: the string has an unpaired surrogate at index 2"),
                (put({"Fill": 1}), ValueError, "the key 'Fill' isn't 1 to 32 of a-z, 0-9 and -"),
                (put({7: 1}), TypeError, "the key must be a string, not 7"),
                (put([("x", 1), ("x", 1)]), ValueError, "x: the key appears twice"),
                (put({f"k{key}": 1 for key in range(17)}), ValueError, "17 attributes; the limit is 16"),
                (put({}), ValueError, "a put needs at least one attribute"),
                (lambda: room.create("a b"), ValueError, "the kind 'a b' isn't 1 to 32 of a-z, 0-9 and -"),
                (lambda: room.put("1,1", (), {"x": 1}), TypeError,
                 "the object must be a name such as (1, 2), not '1,1'"),
                (lambda: room.drop(made.name, 1), TypeError, "the version must be a Version or its identifier"),
                (lambda: Room("127.0.0.1:1", "R"), ValueError, "the room's name 'R' isn't 1 to 64 of a-z, 0-9 and -"),
                (lambda: Room("http://h/", "r"), ValueError,
                 "http://h/ is not an address such as ws://127.0.0.1:7000/"),
                (lambda: room.on("news", print), ValueError,
                 "there is no event 'news'; the events are change, state, progress, refusal, reset, renewed, notes"),
                (lambda: room.put((9, 9), (), {"x": 1}), Refused, "This object does not exist."),
                (lambda: room.put(made.name, [(1, 1)], {"x": 1}), Refused,
                 "This version does not exist any more, so please choose again."),
                (lambda: room.create("rect", {f"k{key}": "\x01" * 256 for key in range(16)}), Refused,
                 "The change is too long for one message."),
            ]:
                self.assertEqual(str(expect_error(message, kind, call)), message, "the message")
            agree(room)
            self.assertEqual(len(room.record), 2, "the record")
        self.assertEqual(expect_error("a creation", Refused, room.create, "rect").word, "closed", "after the close")

    def test_refused_by_the_server(self):
        """A refusal of the server takes back the refused change and the changes that depend on it, and no others."""
        events = EventLog("refusal", "change")
        with server_with_rooms(1) as (server, first), open_rooms(server.name, listeners=events.listeners) as (second,):
            made = first.create("rect")
            agree(first, second)
            with second.hold():
                for put in range(4):
                    first.put(made.name, (), {f"k{16 * put + key}": 1 for key in range(16)})
                first.settled(PATIENCE)
                # The object has the most keys, which the second client has not seen. The server is stopped, so no reply
                # comes in between.
                stop(server)
                refused = second.set(made.name, (), "one-more", 1)
                behind = second.set(made.name, refused.version, "one-more", 2)
                apart = second.create("line", {"x": 7})
                on_it = second.set(apart.name, (), "x", 8)
                names = [apart.name, on_it.name]
                server.process.send_signal(signal.SIGCONT)
                errors = [change.done.exception(PATIENCE).word for change in (refused, behind)]
                self.assertEqual(errors, ["too-many-keys", "withdrawn"], "the refusals")
                self.assertEqual(versions_of(second, made.name), [((), {})], "what is shown again")
                agree(second)
            self.assertEqual((names, [apart.name, on_it.name]), ([(2, 3), (2, 4)], [(2, 1), (2, 2)]), "the names")
            agree(first, second)
            self.assertEqual(versions_of(first, apart.name), [((), {"x": 8})], "the other object")
            self.assertEqual(len(first.versions(made.name)[0].attributes), LIMITS.keys, "the keys")
            wait_until("the news", lambda: len(events.of("refusal")) == 2)
            self.assertEqual(
                [(it.refusal.word, it.change) for it in events.of("refusal")],
                [("too-many-keys", refused), ("withdrawn", behind)],
                "the news",
            )
            self.assertEqual(
                [pair for it in events.of("change") for pair in it.renamed],
                [((2, 3), (2, 1)), ((2, 4), (2, 2))],
                "the renamed changes",
            )

    def test_listening(self):
        """Listeners run in the room's thread, in order, until they end. An exception in one ends nothing."""
        events = EventLog("change")
        hook, sys.excepthook = sys.excepthook, lambda *fault: faults.append(fault[1])
        faults, threads, waits = [], set(), []

        def fail(news):
            threads.add(threading.current_thread().name)
            waits.append(expect_error("a listener that waits", RuntimeError, room.settled))
            raise ValueError("a fault of the program")

        try:
            with Server(1) as server, open_rooms(server.name, listeners=events.listeners) as (room,):
                end = room.on("change", fail)
                made = room.create("rect")
                agree(room)
                wait_until("two news", lambda: len(events.news) == 2)
                end()
                room.set(made.name, (), "x", 1)
                agree(room)
                wait_until("three news", lambda: len(events.news) == 3)
        finally:
            sys.excepthook = hook
        self.assertEqual([it.objects for it in events.of("change")], [[made.name]] * 3, "the news")
        self.assertEqual(
            ([str(fault) for fault in faults], len(waits)), (["a fault of the program"] * 2, 2), "what failed",
        )
        self.assertEqual(threads, {"grace r"}, "the thread")

    def test_many_threads(self):
        """Threads of a program change one room in parallel. Each change is made exactly once."""
        with server_with_rooms(2) as (_, room, other):
            def work(number):
                for count in range(20):
                    room.create("rect", {"value": 20 * number + count})

            threads = [threading.Thread(target=work, args=(number,)) for number in range(8)]
            for thread in threads:
                thread.start()
            for thread in threads:
                thread.join()
            agree(room, other)
            values = sorted(other.versions(name)[0].attributes["value"] for name in other.objects())
            self.assertEqual(values, list(range(160)), "the values")
            self.assertEqual(room.objects(), other.objects(), "the objects of both")

    def test_coming_back_as_a_site(self):
        """A client that comes back as a site continues its numbers. If it cannot come back, the room is closed and has
        the reason."""
        with Server(10, 4) as server:
            with open_rooms(server.name) as (first,):
                made = first.create("rect", {"x": 0})
                agree(first)
                for site, word in (1, "site-in-use"), (2, "no-such-site"):
                    with Room(server.name, "r", site=site, back_seconds=0.3) as other:
                        refusal = expect_error("coming back", Refused, other.entered, PATIENCE)
                        self.assertEqual(refusal.word, word, "the refusal")
                        self.assertEqual(other.state, "closed", "the state")
            with open_rooms(server.name, site=1) as (again,):
                self.assertEqual((again.site, versions_of(again, made.name)), (1, [((), {"x": 0})]), "what it is")
                agree(again)
                self.assertEqual(again.set(made.name, (), "x", 1).name, (1, 2), "the next name")
                agree(again)

    def test_no_such_room(self):
        """A room that does not exist is reported in words, and the client does not retry."""
        with Server(1) as server, Room(server.name, "elsewhere") as room:
            self.assertEqual(
                expect_error("entering", Refused, room.entered, PATIENCE).word, "no-such-room", "the refusal",
            )
            self.assertEqual(
                (room.state, room.words), ("closed", "The server has no room with this name."), "the words",
            )

    def test_not_served(self):
        """While the server cannot serve the room, the client says so, and asks again over the same connection."""
        replies = ['["no",0,21,"not-served"]', '["joined",0,1]', '["entries",1,0,[["join",1]]]']
        events = EventLog("state")
        with ScriptedServer(replies) as server, Room(server.name, "r", listeners=events.listeners) as room:
            room.entered(PATIENCE)
            self.assertEqual(server.requests[:3], ['["join","r"]', '["join","r"]', '["pull",0]'], "the requests")
        words = [it.words for it in events.of("state")]
        wanted = "The server cannot open this room now: it may have no place for one more. Trying again."
        self.assertIn(wanted, words, "whether it says so")

    def test_nobody_listens(self):
        """If nothing listens the client retries, and a close ends that at once."""
        events = EventLog("state")
        with Room("{}:{}".format(*free_address()), "r", retry_seconds=(0.01, 30), listeners=events.listeners):
            wait_until("two attempts", lambda: [it.state for it in events.of("state")].count("waiting") == 2)
            start = time.monotonic()
        # The next attempt would come after 30 seconds, and the close must not wait for it. The bound allows for a busy
        # machine.
        self.assertLess(time.monotonic() - start, 5, "whether it is closed soon")
        self.assertEqual(
            events.of("state")[1].words, "The connection failed: Connection refused. Trying again.", "the words",
        )
        self.assertEqual(events.of("state")[-1].state, "closed", "the end")

    def test_first_program(self):
        """The program in the module's text prints the room's state."""
        program = textwrap.dedent(re.search(r"\n((?: {4}from grace.*\n)(?: {4}.*\n|\n)+)", grace.__doc__)[1])
        printed = []
        with Server(1) as server:
            exec(program.replace("127.0.0.1:7000", server.name), {"print": lambda *words: printed.append(words)})
        self.assertEqual(printed, [("rect", [{"x": 5, "y": 7}])], "what it prints")
