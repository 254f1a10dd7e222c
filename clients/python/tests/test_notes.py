"""Notes: who sees them, how often they are sent, and what a client that does not use them sends."""

import json
import time
import unittest

from grace.notes import Notes
from test_lost import cut
from relay import AT_ONCE, CUT_BEFORE, PASS, Relay
from renewing_server import RenewingServer
from rooms import PATIENCE, EventLog, expect_error, open_rooms, server_with_rooms, wait_until
from lib.serving import Server

# How many seconds earlier than due a message may seem to come.
EARLY = 0.02


def see_notes(room, expected):
    """Waits until the notes of a room are these."""
    wait_until(f"the notes {expected}", lambda: room.notes == expected)


def words_of(texts):
    """Returns the words of messages."""
    return [json.loads(text)[0] for text in texts]


def until_wait(relay, start):
    """Waits until the last message is a wait for this entry. Forgets all."""
    wait_until("the next wait", lambda: relay.texts[-1:] == [f'["wait",{start}]'])
    relay.texts.clear()


class TestNotes(unittest.TestCase):
    def test_notes_that_others_see(self):
        """Two clients see each other's notes, and hear of each change. A note is gone when its client leaves."""
        events = EventLog("notes")
        with server_with_rooms(1) as (server, first), open_rooms(server.name, listeners=events.listeners) as (second,):
            self.assertEqual((first.note, first.notes), ("", {}), "before the first")
            first.note = "a"
            see_notes(second, {1: "a"})
            second.note = "b"
            for room in first, second:
                see_notes(room, {1: "a", 2: "b"})
            second.notes.clear()
            self.assertEqual(list(second.notes), [1, 2], "the notes after a copy was changed")
            first.note = ""
            see_notes(first, {2: "b"})
            see_notes(second, {2: "b"})
            first.note = "c"
            see_notes(second, {1: "c", 2: "b"})
            first.close()
            self.assertEqual(first.notes, {}, "the notes of a closed room")
            see_notes(second, {2: "b"})
            self.assertEqual(second.record, [("join", 1), ("join", 2)], "the record")
        self.assertEqual([it.notes for it in events.of("notes")], [
            {1: "a"}, {1: "a", 2: "b"}, {2: "b"}, {1: "c", 2: "b"}, {2: "b"}, {},
        ], "the news")

    def test_lost_connection(self):
        """A note is gone when the connection of its client is cut. The client sets it again when it is back."""
        with cut() as (_, relay, room, other):
            room.note = "a"
            see_notes(room, {1: "a"})
            see_notes(other, {1: "a"})
            relay.what_to_do = lambda text: CUT_BEFORE
            relay.cut()
            see_notes(other, {})
            wait_until("the connection is lost", lambda: room.state != "open")
            self.assertEqual(room.notes, {}, "the notes meanwhile")
            relay.texts.clear()
            relay.what_to_do = lambda text: PASS
            see_notes(other, {1: "a"})
            see_notes(room, {1: "a"})
            requests = [text for text in relay.texts if text.startswith('["note')]
            self.assertEqual(requests[0], '["note","a"]', "the first request about notes")

    def test_new_site(self):
        """A client that has to join as a new site sets its note as that."""
        with cut(back_seconds=0.3) as (server, relay, room, other):
            room.note = "a"
            see_notes(other, {1: "a"})
            relay.what_to_do = lambda text: CUT_BEFORE
            relay.cut()
            see_notes(other, {})
            with open_rooms(server.name, site=1):
                relay.what_to_do = lambda text: PASS
                see_notes(other, {3: "a"})
            self.assertEqual(room.site, 3, "the site")

    def test_renewed_room(self):
        """The client sets its note in the next room of a chain."""
        with RenewingServer() as server, open_rooms(server.name, server.name) as (first, second):
            first.note = "a"
            see_notes(second, {1: "a"})
            first.create("rect").done.result(PATIENCE)
            server.renew()
            wait_until("both are in the next room", lambda: {first.name, second.name} == {"r.2"})
            wait_until("the note", lambda: second.notes == {first.site: "a"})

    def test_often(self):
        """A note that changes often is sent at once, then ten times a second, and the newest one last."""
        sent = []
        with cut() as (_, relay, room, other):
            def hear(text):
                if text.startswith('["note",'):
                    sent.append((time.monotonic(), json.loads(text)[1]))
                return PASS

            relay.what_to_do = hear
            room.note = "n0"
            wait_until("the first one", lambda: sent)
            for count in range(1, 200):
                room.note = f"n{count}"
                time.sleep(0.005)
            see_notes(other, {1: "n199"})
        self.assertEqual((sent[0][1], sent[-1][1]), ("n0", "n199"), "the first and the last one")
        seconds = sent[-1][0] - sent[0][0]
        self.assertGreaterEqual(seconds, 0.1 * (len(sent) - 1) - EARLY, f"{len(sent)} notes in {seconds} seconds")

    def test_invalid_notes(self):
        """A note that is invalid raises at once, and changes and sends nothing."""
        most = "é" * 128
        with cut() as (_, relay, room, other):
            room.note = most
            see_notes(other, {1: most})
            before = len(relay.texts)
            for text, kind, message in [
                (most + "x", ValueError, "the note: the string has 257 bytes in UTF-8; the limit is 256"),
                ("a\ud83d", ValueError, "the note: the string has an unpaired surrogate at index 1"),
                (5, TypeError, "the note must be a string, not 5"),
                (None, TypeError, "the note must be a string, not None"),
            ]:
                fault = expect_error(message, kind, setattr, room, "note", text)
                self.assertEqual(str(fault), message, "the message")
            self.assertEqual(room.note, most, "the note")
            room.create("rect").done.result(PATIENCE)
            self.assertFalse("note" in words_of(relay.texts[before:]), "whether one was sent")

    def test_notes_not_used(self):
        """A client that does not use notes sends nothing about them, and its wait does not end at a note of others."""
        with cut() as (_, relay, room, other):
            made = room.create("rect")
            until_wait(relay, 3)
            for text in "abc":
                other.note = text
                see_notes(other, {2: text})
            room.set(made.name, (), "x", 1).done.result(PATIENCE)
            wait_until("the next wait", lambda: len(relay.texts) >= 2)
            self.assertEqual(relay.texts, ['["put",2,[[1,1]],[1,1],[],[["x",1]]]', '["wait",4]'], "the messages")

    def test_when_notes_are_asked_for(self):
        """A client asks once for each wait that brought nothing, unless it has set its note meanwhile."""
        with cut() as (_, relay, room, other):
            def expect_texts(what, *expected):
                wait_until(what, lambda: len(relay.texts) >= len(expected) and relay.texts[-1].startswith('["wait"'))
                self.assertEqual(tuple(relay.texts), expected, what)
                relay.texts.clear()

            other.create("rect")
            until_wait(relay, 3)
            room.on("notes", lambda news: None)
            expect_texts("a first listener", '["notes"]', '["wait",3]')
            other.note = "b"
            expect_texts("another's note", '["notes"]', '["wait",3]')
            room.note = "a"
            expect_texts("the own note", '["note","a"]', '["wait",3]')
            room.create("line")
            expect_texts("a change over a wait", '["new",1,[[2,1]],"line",[]]', '["notes"]', '["wait",4]')
            other.create("line")
            expect_texts("another's change", '["wait",5]')

    def test_waits_answered_at_once(self):
        """Where waits are answered at once, a client asks for notes once after each."""
        with Server(10, 4) as server, Relay(server.address[1]) as relay:
            relay.waits = AT_ONCE
            with open_rooms(relay.name, longest_pause_seconds=0.2) as (room,), open_rooms(server.name) as (other,):
                room.on("notes", lambda news: None)
                other.note = "b"
                see_notes(room, {2: "b"})
                before = len(relay.texts)
                wait_until("ten waits", lambda: words_of(relay.texts[before:]).count("wait") >= 10)
                words = words_of(relay.texts[before:])
        self.assertFalse(
            "notes" not in words or any(one == word for one, word in zip(words, words[1:])),
            f"the messages are {words}",
        )

    def test_server_without_notes(self):
        """A server that does not know notes is asked once each time the client enters. All else works."""
        events = EventLog("notes")
        with RenewingServer() as server:
            server.knows_notes = False
            with open_rooms(server.name, listeners=events.listeners) as (room,):
                wait_until("the question", lambda: server.asked("notes"))
                room.note = "a"
                # The time after which a server that knows notes would get it.
                time.sleep(0.15)
                room.create("rect").done.result(PATIENCE)
                server.add(("join", 2))
                wait_until("the news", lambda: len(room.record) == 3)
                self.assertEqual(server.asked("note", "notes"), ['["notes"]'], "what was asked")
                self.assertEqual(
                    (room.state, room.note, room.notes, events.news), ("open", "a", {}, []), "what there is",
                )
                server.knows_notes = True
                server.cut()
                see_notes(room, {1: "a"})

    def test_note_that_stays(self):
        """A note that stays is sent again every 20 seconds, until it is empty."""
        now, sent, waits = [100], [], []
        notes = Notes(lambda: now[0])

        def step(seconds=0, own=None):
            now[0] += seconds
            if own is not None:
                notes.own = own
            if notes.is_due():
                sent.append(notes.next_request())
            waits.append(round(notes.due() - now[0], 3))

        notes.enter()
        step(own="a")
        notes.use()
        notes.receive(())
        step()
        step(0.03, "b")
        step(own="a")
        step(19.97)
        step(0.1, "")
        self.assertEqual(waits, [float("inf"), 20, 0.07, 19.97, 20, float("inf")], "the times to the next request")
        self.assertEqual(sent, [["note", "a"], ["note", "a"], ["note", ""]], "what is sent")
