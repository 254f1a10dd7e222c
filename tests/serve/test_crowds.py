"""Many requests in flight, many clients in parallel, and many clients of one thread."""

import statistics
import threading
import time
import unittest
from functools import partial

from lib.crowd import Crowd
from lib.drawing import Drawer, draw_in_rounds
from lib.records import compact
from lib.serving import Server, run
from lib.websocket_client import PING, PONG, SECONDS, TEXT, frame

JOIN = '["join","r"]'
CLIENTS = 64
PUTS = 20
# The sessions before the first measurement of memory, the sessions after it, and the bytes that each of these may
# leave.
WARM_UP, COUNTED, BYTES_EACH = 1000, 3000, 64


# ---- one client


def requests_of_one(count):
    """Yields one client's requests with their replies: a put, a refusal, a page and an invalid message in turn."""
    yield JOIN, '["joined",0,1]'
    yield '["new",1,[],"rect",[]]', '["made",1,[1,1]]'
    for turn in range(count):
        at = turn + 2
        yield f'["put",{at},[[1,{at - 1}]],[1,1],[],[["x",{turn}]]]', f'["taken",{at},[[]]]'
        yield f'["pull",{turn + 1000}]', f'["no",{at + 1},17,"too-far"]'
        yield f'["pull",{at + 1}]', f'["entries",{at + 1},{at + 1},[]]'
        yield f'["sit",{turn}]', '["no",0,1,"bad-message"]'


class TestOneClient(unittest.TestCase):
    def test_in_flight(self):
        """One client sends 802 requests before it reads, in pieces of this size that end anywhere. Each request gets
        one reply, in order."""
        for name, size in [("in one piece", 1 << 20), ("in small pieces", 1009)]:
            with self.subTest(name):
                self.check_in_flight(size)

    def check_in_flight(self, size):
        """Sends all requests in pieces of this size, and then reads the replies."""
        with Server() as server:
            client = server.client()
            talk = list(requests_of_one(200))
            data = b"".join(client.frame_of(request) for request, _ in talk)
            for place in range(0, len(data), size):
                client.send(data[place : place + size])
            for request, reply in talk:
                self.assertEqual(client.read_reply(), reply, f"the reply to {request}")
            client.send(frame(PING, b"no more"))
            self.assertEqual(client.read_frame(), (PONG, b"no more"), "the frame after the replies")
            server.finish()

    def test_two_at_a_time(self):
        """The server answers two requests in one piece at once: no reply waits for the TCP acknowledgement of the one
        before. Such a wait takes 40 ms. The bound is 30 ms for the fastest quarter of 100 pairs, so stalls during some
        pairs do no harm. A system acknowledges at most the first 16 pairs at once."""
        with Server() as server:
            client = server.client()
            times = []
            for _ in range(100):
                data = client.frame_of('["leave"]') + client.frame_of('["leave"]')
                start = time.monotonic()
                client.send(data)
                client.read_reply()
                client.read_reply()
                times.append(time.monotonic() - start)
            quarter, *_ = statistics.quantiles(times)
            self.assertLessEqual(quarter, 0.03, f"two replies take {quarter * 1000:.0f} ms")
            server.finish()


# ---- many clients


def end_badly(server, kind):
    """Runs a session outside a room that ends without a close: by no handshake, or by a violation after it. Returns its
    cause."""
    client = server.client() if kind else server.connect()
    client.send(frame(TEXT, b"[]", reserved=7) if kind else b"GET / HTTP/1.1\r\n\r\n")
    client.expect_end()
    return "stream fault" if kind else "handshake failed"


def ask_and_record(client, talk, request):
    """Sends a request and appends it with its reply to `talk`. Returns the reply."""
    text = compact(request)
    talk.append((client.session, text, client.ask(text)))
    return talk[-1][2]


class TestManyClients(unittest.TestCase):
    def draw(self, client, room, others):
        """Joins and waits until the room's first client has made an object. Creates an object, changes it ten times,
        and changes the first client's object ten times, by a key of its own."""
        client.ask(["join", room])
        site = client.transcript.site
        if site != 1:
            others[room].wait(SECONDS)
        for seq in range(1, PUTS + 2):
            seen = [[1, 1]] if site > 1 else []
            seen += [[site, seq - 1]] if seq > 1 else []
            if seq == 1:
                client.ask(["new", 1, seen, "rect", [["x", site]]])
                others[room].set()
                continue
            on_own = seq % 2 == 0 or site == 1
            reply = client.ask(["put", seq, seen, [site if on_own else 1, 1], [], [[f"key-{site}", seq]]])
            self.assertRegex(reply, r'^\["taken",\d+,\[\[\]\]\]$')

    def test_many_at_once(self):
        """64 clients in parallel, half in each of two rooms. Each creates an object and sends 20 puts."""
        with Server(CLIENTS, CLIENTS, ["a", "b"]) as server:
            clients = [server.client() for _ in range(CLIENTS)]
            made = {"a": threading.Event(), "b": threading.Event()}
            crowd = Crowd()
            for place, client in enumerate(clients):
                crowd.start(self.draw, client, "ab"[place % 2], made)
            crowd.end()
            records = server.finish()
        self.assertEqual([len(records[room]) for room in "ab"], [CLIENTS // 2 * (PUTS + 2)] * 2, "the entries")

    def test_many_sessions(self):
        """The server serves 200 sessions, one after another. The rooms keep their state between sessions."""
        with Server(200, 4) as server:
            for turn in range(200):
                client = server.client()
                client.expect_reply(JOIN, f'["joined",{turn},{turn + 1}]')
                client.close()
            server.finish()

    def test_memory_of_ended_sessions(self):
        """The server keeps at most 64 bytes for each ended session that was in no room."""
        warnings = {}
        with Server(WARM_UP + COUNTED + 1, 4) as server:
            for session in range(1, WARM_UP + COUNTED + 1):
                if session == WARM_UP + 1:
                    before = server.memory()[0]
                if session % 3:
                    warnings[session] = end_badly(server, session % 3 - 1)
                else:
                    client = server.client()
                    client.expect_reply('["join","elsewhere"]', '["no",0,4,"no-such-room"]')
                    client.close()
            grown = server.memory()[0] - before
            server.client().close()
            server.finish(warnings)
        self.assertLessEqual(1024 * grown, BYTES_EACH * COUNTED, f"{COUNTED} ended sessions occupy {grown} KiB")

    def test_one_thread(self):
        """One thread serves 200 clients at once, each in turn."""
        with Server(200, 1) as server:
            clients = [server.client() for _ in range(200)]
            for turn, client in enumerate(clients):
                client.expect_reply(JOIN, f'["joined",{turn},{turn + 1}]')
            for turn, client in enumerate(reversed(clients)):
                client.expect_reply('["leave"]', '["left",200]')
            server.finish()

    def test_as_script(self):
        """Five clients draw in turn. `grace script` gives the same replies to the same requests."""
        talk = []
        with Server(5, 5) as server:
            clients = [server.client() for _ in range(5)]
            drawers = [Drawer(partial(ask_and_record, client, talk), place) for place, client in enumerate(clients)]
            for drawer in drawers:
                drawer.join("r")
            draw_in_rounds(drawers, 200)
            server.finish()
        script = "".join(f"{session} {request}\n" for session, request, _ in talk)
        status, output, errors = run("script", "r", stdin=script.encode())
        self.assertEqual((status, errors), (0, ""), "the script's status")
        for (session, request, reply), line in zip(talk, output.splitlines(), strict=True):
            self.assertEqual(line, f"{session} {reply}", f"the script's line for {request:.200}")
