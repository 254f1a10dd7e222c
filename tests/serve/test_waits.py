"""Waits for the record: held until an entry is added, another message comes or time is over."""

import queue
import threading
import time
import unittest

from lib.crowd import Crowd
from lib.running import OPTIONS
from lib.serving import Server
from lib.websocket_client import CLOSE, PING, PONG, SECONDS, TEXT, closing, frame

JOIN = '["join","r"]'
HELD_SECONDS = 25
WRITERS, READERS, ROUNDS = 4, 16, 200
# Of the turns of two writers: how many a room has, and within how many seconds each reader has to get the entry.
TURNS = 1000
SOON = 1


def two_in_room(server):
    """Connects two clients, which are in the room as sites 1 and 2."""
    first, second = server.client(), server.client()
    first.expect_reply(JOIN, '["joined",0,1]')
    second.expect_reply(JOIN, '["joined",1,2]')
    return first, second


def follow(client, count, seen):
    """Follows the record by waits until it has so many entries, and notes the number."""
    have = 0
    while have < count:
        have += len(client.reply_to(["wait", have])[3])
    seen.append(have)


def add(client, barrier):
    """Joins when all do, and adds entries as fast as it can."""
    site = client.transcript.site
    barrier.wait(SECONDS)
    for seq in range(1, ROUNDS + 1):
        seen = [[site, seq - 1]] if seq > 1 else []
        if seq == 1:
            client.ask(["new", seq, seen, "rect", []])
        else:
            client.ask(["put", seq, seen, [site, 1], [], [["x", seq]]])


def report_news(client, have, last, news):
    """Waits for one entry after another up to the last, and reports each number of entries."""
    while have < last:
        have += len(client.reply_to(["wait", have])[3])
        news.put(have)


class TestWaits(unittest.TestCase):
    def hold(self, client, start):
        """Sends a wait from this place, which is held."""
        client.send_request(f'["wait",{start}]')
        client.expect_silence()

    def test_an_entry_comes(self):
        """A wait is answered once an entry is added, whether the sessions are of one loop or not."""
        for name, workers in [("in one thread", 1), ("in two threads", 2)]:
            with self.subTest(name), Server(2, workers) as server:
                waiting, drawing = two_in_room(server)
                self.hold(waiting, 2)
                drawing.expect_reply('["new",1,[],"rect",[]]', '["made",2,[2,1]]')
                self.assertEqual(waiting.read_reply(), '["entries",3,2,[["new",[2,1],[],"rect",[]]]]', "the page")
                server.finish()

    def test_answered_at_once(self):
        """A wait is answered at once where the record has more entries or fewer, and where the session is in no
        room."""
        with Server(2, 1) as server:
            client = server.client()
            client.expect_reply('["wait",0]', '["no",0,2,"not-joined"]')
            client.expect_reply(JOIN, '["joined",0,1]')
            client.expect_reply('["wait",0]', '["entries",1,0,[["join",1]]]')
            client.expect_reply('["wait",2]', '["no",1,17,"too-far"]')
            client.expect_reply('["wait",-1]', '["no",0,1,"bad-message"]')
            client.expect_reply('["wait"]', '["no",0,1,"bad-message"]')
            client.expect_reply('["wait",65536]', '["no",0,1,"bad-message"]')
            server.client()
            server.finish()

    def test_another_message_comes(self):
        """The next message of the session has the wait answered before it, also by another wait."""
        with Server(1, 1) as server:
            client = server.client()
            client.expect_reply(JOIN, '["joined",0,1]')
            self.hold(client, 1)
            client.send_request('["new",1,[],"rect",[]]')
            self.assertEqual(client.read_reply(), '["entries",1,1,[]]', "the page")
            self.assertEqual(client.read_reply(), '["made",1,[1,1]]', "the reply")
            self.hold(client, 2)
            client.send_request('["wait",2]')
            self.assertEqual(client.read_reply(), '["entries",2,2,[]]', "the page")
            client.expect_silence()
            client.send_request('["leave"]')
            self.assertEqual(client.read_reply(), '["entries",2,2,[]]', "the page")
            self.assertEqual(client.read_reply(), '["left",2]', "the reply")
            server.finish()

    def test_ping_while_held(self):
        """A ping is answered at once, and the wait stays held."""
        with Server(2, 1) as server:
            waiting, drawing = two_in_room(server)
            self.hold(waiting, 2)
            waiting.send(frame(PING, b"there"))
            self.assertEqual(waiting.read_frame(), (PONG, b"there"), "the answer")
            waiting.expect_silence()
            drawing.expect_reply('["new",1,[],"rect",[]]', '["made",2,[2,1]]')
            self.assertEqual(waiting.read_reply(), '["entries",3,2,[["new",[2,1],[],"rect",[]]]]', "the page")
            server.finish()

    def test_ended_while_held(self):
        """A close or the end of the connection drops the wait, and frees the site."""
        for name, closes in [("a close", True), ("a hang-up", False)]:
            with self.subTest(name):
                self.check_ended_while_held(closes)

    def check_ended_while_held(self, closes):
        """Ends a session whose wait is held, by a close or without."""
        with Server(2, 1) as server:
            client = server.client()
            client.expect_reply(JOIN, '["joined",0,1]')
            client.send(frame(TEXT, b'["wait",1]'))
            client.expect_silence()
            if closes:
                client.send(frame(CLOSE, closing(1000)))
                self.assertEqual(client.read_frame(), (CLOSE, closing(1000)), "the answer")
                client.expect_end()
            else:
                client.hang_up()
            other = server.client()
            bound = time.monotonic() + SECONDS
            while other.ask('["back","r",1]') != '["back",1,1,0]':
                self.assertLessEqual(time.monotonic(), bound, "the site is not free")
            server.finish(warnings={} if closes else {1: "stream fault"})

    def test_time_is_over(self):
        """After 25 seconds a wait is answered by an empty page. A second wait, sent later, is held for as long."""
        with Server(2, 1) as server:
            first, second = two_in_room(server)
            start = time.monotonic()
            first.send_request('["wait",2]')
            time.sleep(2)
            second.send_request('["wait",2]')
            for client, least in ((first, HELD_SECONDS), (second, HELD_SECONDS + 2)):
                self.assertEqual(client.read_reply(), '["entries",2,2,[]]', "the page")
                seconds = time.monotonic() - start
                self.assertGreaterEqual(seconds, least, f"a wait was held for {seconds:.1f} seconds")
            server.finish()

    def test_no_wake_is_lost(self):
        """Writers in several loops add entries at once while readers in all loops wait. Each reader gets all of them. A
        lost wake would take 25 seconds, which is too long."""
        with Server(WRITERS + READERS, 4) as server:
            clients = [server.client() for _ in range(WRITERS + READERS)]
            for place, client in enumerate(clients):
                client.expect_reply(JOIN, f'["joined",{place},{place + 1}]')
            count, seen = len(clients) + WRITERS * ROUNDS, []
            barrier = threading.Barrier(WRITERS)
            start = time.monotonic()
            crowd = Crowd()
            for place, client in enumerate(clients):
                if place % 5 == 0:
                    crowd.start(add, client, barrier)
                else:
                    crowd.start(follow, client, count, seen)
            crowd.end()
            seconds = time.monotonic() - start
            self.assertEqual(seen, [count] * READERS, "the entries")
            self.assertLessEqual(seconds, HELD_SECONDS - 5, f"the readers took {seconds:.1f} seconds")
            server.finish()


class TestTurns(unittest.TestCase):
    @property
    def time_limit(self):
        """The bound of a slow run, in seconds."""
        return 10 * OPTIONS.turns + 2 * SECONDS

    def expect_news(self, news, count):
        """Expects that a reader has so many entries soon."""
        try:
            self.assertEqual(news.get(timeout=SOON), count, "the entries of a reader")
        except queue.Empty:
            raise AssertionError(f"a wait was not answered within {SOON} s of entry {count}") from None

    def add_in_turn(self, writers, start, readers):
        """The writers add entries in turn, each once all readers have the one before. Their next waits come
        meanwhile."""
        for turn in range(TURNS):
            writer, seq = writers[turn % len(writers)], turn // len(writers) + 1
            site = writer.transcript.site
            seen = [[site, seq - 1]] if seq > 1 else []
            rest = ["rect", []] if seq == 1 else [[site, 1], [], [["x", seq]]]
            writer.ask(["new" if seq == 1 else "put", seq, seen, *rest])
            for news in readers:
                self.expect_news(news, start + turn + 1)

    def test_each_wake_in_time(self):
        """Two loops add entries in turn while readers in both wait. Each wait is answered soon after its entry. A lost
        wake would take 25 seconds, and no further entry hides it."""
        end = time.monotonic() + OPTIONS.turns
        while time.monotonic() < end:
            with Server(6, 2) as server:
                clients = [server.client() for _ in range(6)]
                for place, client in enumerate(clients):
                    client.expect_reply(JOIN, f'["joined",{place},{place + 1}]')
                writers, readers = clients[:2], {client: queue.Queue() for client in clients[2:]}
                crowd = Crowd()
                for client, news in readers.items():
                    crowd.start(report_news, client, len(clients), len(clients) + TURNS, news)
                self.add_in_turn(writers, len(clients), readers.values())
                crowd.end()
                server.finish()
