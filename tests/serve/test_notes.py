"""Notes of the sites of a room: who has one, how long, and who is told that one has changed."""

import json
import threading
import time
import unittest

from lib.serving import Client, Server
from lib.websocket_client import BINARY, SECONDS

JOIN = '["join","r"]'
# How often a room is rung in a second at most, and for how many seconds notes are changed as fast as a session can.
RINGS, CHANGING_SECONDS = 20, 2
SITTERS, DRAWERS, ROUNDS, PAUSE = 64, 8, 20, 0.1


def two_in_room(server):
    """Connects two clients, which are in the room as sites 1 and 2. The second has asked for notes."""
    first, second = server.client(), server.client()
    first.expect_reply(JOIN, '["joined",0,1]')
    second.expect_reply(JOIN, '["joined",1,2]')
    second.expect_reply('["notes"]', '["notes",2,[]]')
    return first, second


def leave(client):
    """The session leaves the room."""
    client.expect_reply('["leave"]', '["left",2]')


def sit(client, site, faults):
    """Changes the note of a site, and expects the own note among those of further sites, in order."""
    for step in range(ROUNDS):
        client.send_request(f'["note","{site} {step}"]')
        reply = json.loads(client.read_reply())
        sites = [note[0] for note in reply[2]]
        if sites != sorted(set(sites)) or [site, f"{site} {step}"] not in reply[2]:
            faults.append(reply)
        time.sleep(PAUSE)


def draw(client, site, faults):
    """Creates objects."""
    for seq in range(1, ROUNDS + 1):
        client.send_request(f'["new",{seq},{f"[[{site},{seq - 1}]]" if seq > 1 else "[]"},"rect",[]]')
        if json.loads(client.read_reply())[0] != "made":
            faults.append(seq)
        time.sleep(PAUSE)


class TestNotes(unittest.TestCase):
    def test_a_note_changes(self):
        """A held wait of a session that has asked for notes is answered when one changes, and at once if one has
        changed since."""
        for name, workers in [("in one thread", 1), ("in two threads", 2)]:
            with self.subTest(name), Server(2, workers) as server:
                moving, waiting = two_in_room(server)
                waiting.send_request('["wait",2]')
                waiting.expect_silence()
                moving.expect_reply('["note","a"]', '["notes",2,[[1,"a"]]]')
                self.assertEqual(waiting.read_reply(), '["entries",2,2,[]]', "the page")
                moving.expect_reply('["note","b"]', '["notes",2,[[1,"b"]]]')
                waiting.expect_reply('["wait",2]', '["entries",2,2,[]]')
                waiting.expect_reply('["notes"]', '["notes",2,[[1,"b"]]]')
                waiting.send_request('["wait",2]')
                moving.expect_reply('["note","b"]', '["notes",2,[[1,"b"]]]')
                waiting.expect_silence()
                waiting.close()
                server.finish()

    def test_who_has_not_asked(self):
        """A session that has not asked for notes is not told of them, and its own note is no news for a session."""
        with Server(2, 1) as server:
            first, second = two_in_room(server)
            first.send_request('["wait",2]')
            second.expect_reply('["note","a"]', '["notes",2,[[2,"a"]]]')
            second.send_request('["wait",2]')
            first.expect_silence()
            second.expect_silence()
            second.close()
            server.finish()

    def test_a_session_goes(self):
        """The note of a session that goes is removed, and others are told."""
        for name, end, warnings in [
            ("that leaves", leave, {}),
            ("that closes", Client.close, {}),
            ("whose connection is cut", Client.hang_up, {1: "stream fault"}),
        ]:
            with self.subTest(name), Server(3, 1) as server:
                going, waiting = two_in_room(server)
                going.expect_reply('["note","a"]', '["notes",2,[[1,"a"]]]')
                waiting.expect_reply('["notes"]', '["notes",2,[[1,"a"]]]')
                waiting.send_request('["wait",2]')
                end(going)
                self.assertEqual(waiting.read_reply(), '["entries",2,2,[]]', "the page")
                waiting.expect_reply('["notes"]', '["notes",2,[]]')
                again = server.client()
                again.expect_reply('["back","r",1]', '["back",2,1,0]')
                again.expect_reply('["notes"]', '["notes",2,[]]')
                server.finish(warnings)

    def test_hostile_notes(self):
        """A note of controls comes back with its escapes. One of 257 bytes and one that is not UTF-8 are bad messages,
        and change no note."""
        with Server(1, 1) as server:
            client = server.client()
            client.expect_reply(JOIN, '["joined",0,1]')
            controls = 256 * "\\u0001"
            client.expect_reply(f'["note","{controls}"]', f'["notes",1,[[1,"{controls}"]]]')
            client.expect_reply(f'["note","{257 * "a"}"]', '["no",0,1,"bad-message"]')
            client.expect_reply(b'["note","\xff"]', '["no",0,1,"bad-message"]', BINARY)
            client.expect_reply('["notes"]', f'["notes",1,[[1,"{controls}"]]]')
            server.finish()


class TestRings(unittest.TestCase):
    time_limit = 60

    def test_rings_are_joined(self):
        """However fast a note changes, a session that waits is told of it at most 20 times a second, and of the last
        one."""
        with Server(2, 2) as server:
            moving, waiting = two_in_room(server)
            told = []

            def listen():
                while not told or told[-1] != "last":
                    waiting.send_request('["wait",2]')
                    waiting.read_reply()
                    waiting.send_request('["notes"]')
                    told.append(json.loads(waiting.read_reply())[2][0][1])

            listener = threading.Thread(target=listen)
            listener.start()
            end, count = time.monotonic() + CHANGING_SECONDS, 0
            while time.monotonic() < end:
                count += 1
                moving.expect_reply(f'["note","{count}"]', f'["notes",2,[[1,"{count}"]]]')
            moving.expect_reply('["note","last"]', '["notes",2,[[1,"last"]]]')
            listener.join(SECONDS)
            self.assertEqual(told[-1], "last", "the last note told")
            self.assertIn(len(told), range(3, RINGS * CHANGING_SECONDS + 4), f"the rings for {count} changes")
            server.finish()


class TestCrowd(unittest.TestCase):
    time_limit = 120

    def test_a_crowd(self):
        """64 sessions change their notes ten times a second while 8 draw. The record has only what these drew."""
        with Server(SITTERS + DRAWERS, 4) as server:
            clients, faults = [server.client() for _ in range(SITTERS + DRAWERS)], []
            for site, client in enumerate(clients, start=1):
                client.expect_reply(JOIN, f'["joined",{site - 1},{site}]')
            threads = [
                threading.Thread(target=sit if site <= SITTERS else draw, args=(client, site, faults))
                for site, client in enumerate(clients, start=1)
            ]
            for thread in threads:
                thread.start()
            for thread in threads:
                thread.join()
            self.assertEqual(faults, [], "the faults")
            records = server.finish()
            self.assertEqual(len(records["r"]), SITTERS + DRAWERS + DRAWERS * ROUNDS, "the entries")
