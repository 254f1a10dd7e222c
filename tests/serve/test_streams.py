"""Failed handshakes, broken connections, and clients that send or read nothing."""

import resource
import signal
import threading
import time
import unittest

from lib.handshakes import HANDSHAKES, KEY
from lib.serving import Server
from lib.websocket_client import SECONDS, TEXT, Ended, frame, head, header, new_key

# The --idle time in seconds. It is longer than a loaded machine stalls, so that the server ends no other session.
IDLE = 4
JOIN = '["join","r"]'


def expect_next_served(server, at=0, site=None):
    """Expects that a further client can join at this place, as this site."""
    server.client().expect_reply(JOIN, f'["joined",{at},{site or at + 1}]')


# ---- handshakes


BROWSER = """GET /drawing HTTP/1.1
Host: localhost:7000
User-Agent: Mozilla/5.0
Accept: */*
Accept-Encoding: gzip, deflate, br
Sec-WebSocket-Version: 13
Origin: http://localhost
Sec-WebSocket-Protocol: drawing
Sec-WebSocket-Extensions: permessage-deflate; client_max_window_bits
Sec-WebSocket-Key: {}
Connection: keep-alive, Upgrade
Cookie: one=1; two=2
Cache-Control: no-cache
Upgrade: websocket

"""


class TestHandshakes(unittest.TestCase):
    def test_handshake_fails(self):
        """These bytes end the connection without a WebSocket."""
        for name, *row in [*HANDSHAKES, ("a hang-up in the middle", head(KEY)[:60], False)]:
            with self.subTest(name):
                self.check_handshake_fails(*row)

    def check_handshake_fails(self, data, server_ends=True):
        """Sends these bytes, and expects that the server then serves another client."""
        with Server(2, 1) as server:
            client = server.connect()
            try:
                client.send(data)
                if not server_ends:
                    client.hang_up()
                while not client.is_over:
                    client.fill()
            except Ended:
                client.is_over = True
            client.socket.close()
            self.assertNotIn(b" 101 ", client.received, f"unexpected answer {bytes(client.received)!r:.200}")
            expect_next_served(server)
            server.finish(warnings={1: "handshake failed"})

    def test_head_in_pieces(self):
        """A head may arrive in pieces, with any path."""
        with Server() as server:
            client = server.connect()
            key = new_key()
            data = head(key, "/some/path?with=words")
            for piece in (data[:1], data[1:50], data[50:-1], data[-1:]):
                client.send(piece)
                time.sleep(0.02)
            client.read_answer(key)
            client.expect_reply(JOIN, '["joined",0,1]')
            server.finish()

    def allow_descriptors(self, count):
        """Lets this process, and the server that it starts, have so many open files."""
        soft, hard = resource.getrlimit(resource.RLIMIT_NOFILE)
        if hard < count:
            raise unittest.SkipTest("too few open files are allowed")
        resource.setrlimit(resource.RLIMIT_NOFILE, (max(soft, count), hard))

    def test_half_heads(self):
        """Of more than 1,024 connections without a whole head the oldest end. The others may still send theirs, and an
        honest client is served at once."""
        most, more = 1024, 50
        self.allow_descriptors(2 * most)
        with Server(most + more + 1, 1) as server:
            halves = [server.connect() for _ in range(most + more)]
            for half in halves:
                half.send(head(KEY)[:60])
            start = time.monotonic()
            expect_next_served(server)
            passed = time.monotonic() - start
            self.assertLessEqual(passed, 1, f"an honest client waited {passed:.1f} seconds")
            for half in halves[: more + 1]:
                half.expect_end()
            last = halves[-1]
            last.send(head(KEY)[60:])
            last.read_answer(KEY)
            last.expect_reply(JOIN, '["joined",1,2]')
            for half in halves[more + 1 : -1]:
                half.hang_up()
            server.finish(warnings={half.session: "handshake failed" for half in halves[:-1]})

    def test_frames_behind_the_head(self):
        """Frames may come in one piece with the head."""
        with Server() as server:
            client = server.connect()
            key = new_key()
            client.send(head(key) + client.frame_of(JOIN) + client.frame_of('["leave"]'))
            client.read_answer(key)
            self.assertEqual(client.read_reply(), '["joined",0,1]', "the reply")
            self.assertEqual(client.read_reply(), '["left",1]', "the reply")
            server.finish()

    def test_browser_head(self):
        """The server ignores the other fields of a browser's head."""
        with Server() as server:
            client = server.connect()
            key = new_key()
            client.send(BROWSER.replace("\n", "\r\n").format(key).encode())
            client.read_answer(key)
            client.expect_reply(JOIN, '["joined",0,1]')
            server.finish()


# ---- broken connections


NEW = frame(TEXT, b'["new",1,[],"rect",[["x",0]]]')
PARTS = [
    ("nothing more", b""),
    ("the first byte of a frame", NEW[:1]),
    ("half a header", NEW[:3]),
    ("half a frame", NEW[:-5]),
    ("half a long frame", header(TEXT, 200_000) + bytes(4) + bytes(150_000)),
    ("one of two fragments", frame(TEXT, b'["new",1,[],"rect",[', final=False)),
]


class TestBrokenConnections(unittest.TestCase):
    def test_hang_up_at_once(self):
        """A client disconnects without sending a byte."""
        with Server(2, 1) as server:
            server.connect().hang_up()
            expect_next_served(server)
            server.finish(warnings={1: "handshake failed"})

    def test_hang_up_after(self):
        """A client joins, sends part of a message and disconnects. The server executes nothing of it."""
        for name, data in PARTS:
            with self.subTest(name), Server(2, 1) as server:
                client = server.client()
                client.expect_reply(JOIN, '["joined",0,1]')
                client.send(data)
                client.hang_up()
                expect_next_served(server, at=1)
                server.finish(warnings={1: "stream fault"})

    def test_hang_up_before_reading(self):
        """A client sends a creation and ten puts, and disconnects before it reads. The executed ones stay in the
        record."""
        with Server(2, 1) as server:
            client = server.client()
            client.expect_reply(JOIN, '["joined",0,1]')
            puts = [["put", seq, [[1, seq - 1]], [1, 1], [], [["x", seq]]] for seq in range(2, 12)]
            requests = [["new", 1, [], "rect", []], *puts]
            client.send(b"".join(map(client.frame_of, requests)))
            client.hang_up()
            other = server.client()
            other.ask(JOIN)
            server.finish(warnings={1: "stream fault"})


# ---- silent clients


class TestSilentClients(unittest.TestCase):
    def test_silent_client(self):
        """A client sends these bytes and then nothing. The server ends its session after the seconds of `--idle`, and
        serves another client. The lower bound is 0.9 of these seconds; the clock starts before the client connects, so
        a stall only lengthens the time. The upper bound is the client's own, 30 seconds."""
        for name, *row in [
            ("after the handshake", b"", "stream fault"),
            ("in a frame", NEW[:9], "stream fault"),
            ("before the handshake", b"", "handshake failed", False),
            ("in the handshake", head(KEY)[:60], "handshake failed", False),
        ]:
            with self.subTest(name):
                self.check_silent_client(*row)

    def check_silent_client(self, before, cause, opened=True):
        """Sends these bytes, and waits for the end of the session, of which the server warns by this cause."""
        with Server(2, 2, idle=IDLE) as server:
            start = time.monotonic()
            client = server.client() if opened else server.connect()
            client.send(before)
            client.expect_end()
            passed = time.monotonic() - start
            self.assertGreaterEqual(passed, 0.9 * IDLE, f"the server ended the session after {passed:.1f} seconds")
            expect_next_served(server)
            server.finish(warnings={1: cause})

    def test_now_and_then(self):
        """A client that sends requests regularly stays connected. With --idle 6 it sends one every 1.5 seconds, for
        more than 6 seconds in all. A stall of 4 seconds between two requests does no harm."""
        for name, idle, pause, count in [("with --idle", 6, 1.5, 5), ("with --idle 0", 0, 1, 2)]:
            with self.subTest(name), Server(1, 1, idle=idle) as server:
                client = server.client()
                for _ in range(count):
                    client.expect_reply('["leave"]', '["no",0,2,"not-joined"]')
                    time.sleep(pause)
                client.expect_reply(JOIN, '["joined",0,1]')
                server.finish()


# ---- a server that is stopped

STOPPED = 0.3


class TestStoppedServer(unittest.TestCase):
    def test_stopped_and_continued(self):
        """SIGSTOP stops the server while it waits for a silent client, for the rest of a frame and for the rest of a
        handshake. After SIGCONT it serves all three."""
        with Server(3, 3) as server:
            silent, halfway, opening = server.client(), server.client(), server.connect()
            silent.expect_reply(JOIN, '["joined",0,1]')
            data = halfway.frame_of(JOIN)
            halfway.send(data[:9])
            opening.send(head(KEY)[:60])
            time.sleep(STOPPED)
            server.process.send_signal(signal.SIGSTOP)
            time.sleep(STOPPED)
            server.process.send_signal(signal.SIGCONT)
            time.sleep(STOPPED)
            halfway.send(data[9:])
            self.assertEqual(halfway.read_reply(), '["joined",1,2]', "the reply to the frame")
            opening.send(head(KEY)[60:])
            opening.read_answer(KEY)
            opening.expect_reply(JOIN, '["joined",2,3]')
            silent.expect_reply('["leave"]', '["left",3]')
            server.finish()


# ---- a client that never reads


def flood(client, done):
    """Sends pulls and reads no reply, until the server ends the connection."""
    data = b"".join(frame(TEXT, b'["pull",0]') for _ in range(200))
    try:
        while True:
            client.send(data)
    except (Ended, OSError) as end:
        done.append(end)


def longest_wait_while(thread, client, at):
    """Sends requests while the thread runs. Returns the longest time to a reply."""
    bound, longest = time.monotonic() + 3 * SECONDS, 0
    while thread.is_alive() and time.monotonic() < bound:
        start = time.monotonic()
        client.expect_reply('["show",[9,9]]', f'["no",{at},11,"no-such-object"]')
        longest = max(longest, time.monotonic() - start)
        time.sleep(0.05)
    return longest


class TestClientThatNeverReads(unittest.TestCase):
    def test_never_reads(self):
        """A client floods the server with requests and reads no reply. The server serves another client meanwhile and
        ends the first session after `--idle`, 8 seconds here. If the flood blocked the other client, a reply to it
        would take 8 seconds. The bound is 4 seconds, longer than a loaded machine stalls. The clock starts before the
        flood."""
        idle = 2 * IDLE
        with Server(3, 2, idle=idle) as server:
            other = server.client()
            other.expect_reply(JOIN, '["joined",0,1]')
            for seq in range(1, 65):
                other.ask(["new", seq, [[1, seq - 1]] if seq > 1 else [], "rect", [["t", "a text" * 20]]])
            client = server.client(receive_buffer=4096)
            # A slow server takes long to fill the buffers of the connection.
            client.socket.settimeout(3 * SECONDS)
            client.expect_reply(JOIN, '["joined",65,2]')
            done = []
            thread = threading.Thread(target=flood, args=(client, done), daemon=True)
            start = time.monotonic()
            thread.start()
            longest = longest_wait_while(thread, other, at=66)
            passed = time.monotonic() - start
            self.assertEqual([type(end) for end in done], [Ended], "the end of the client that never reads")
            self.assertLessEqual(longest, idle / 2, f"another client waited {longest:.1f} seconds")
            self.assertGreaterEqual(passed, 0.9 * idle, f"the server ended the session after {passed:.1f} seconds")
            client.hang_up()
            expect_next_served(server, at=66, site=3)
            server.finish(warnings={2: "stream fault"})
