"""The heads of probes, and heads that differ from them in one place."""

import unittest

from lib.observing import HEALTHY, answer_to
from lib.serving import Server

PROBES = [
    b"GET /health HTTP/1.1\r\n\r\n",
    b"GET /health HTTP/1.1\r\nHost: localhost:7000\r\nUser-Agent: curl/8.5.0\r\nAccept: */*\r\n\r\n",
    b"GET /health HTTP/1.0\r\n\r\n",
    b"GET /health HTTP/1.1\r\nX-Upgrade: websocket\r\n\r\n",
]
OTHERS = [
    b"GET /healthy HTTP/1.1\r\n\r\n",
    b"GET /health/ HTTP/1.1\r\n\r\n",
    b"GET / HTTP/1.1\r\n\r\n",
    b"POST /health HTTP/1.1\r\n\r\n",
    b"get /health HTTP/1.1\r\n\r\n",
    b"GET  /health HTTP/1.1\r\n\r\n",
    b"GET /health HTTP/1.1\r\nHost: localhost\r\nuPGRADE: websocket\r\n\r\n",
]
# Heads that begin as that of a probe and are not complete.
BEGUN = [
    *(PROBES[1][:count] for count in range(8, len(PROBES[1]), 9)),
    PROBES[1][:-1],
]


class TestProbeHeads(unittest.TestCase):
    def expect_no_answer_yet(self, client):
        """Expects that the client has received nothing."""
        client.socket.setblocking(False)
        with self.assertRaises(BlockingIOError):
            client.socket.recv(4096)

    def test_probes(self):
        """A probe is answered, whatever its other fields are. It is no session: the only one comes after them."""
        with Server(1, 1) as server:
            for head in PROBES:
                self.assertEqual(answer_to(server, head), HEALTHY, f"the answer to {head!r}")
            server.client().expect_reply('["join","r"]', '["joined",0,1]')
            server.finish()

    def test_other_heads(self):
        """Other heads are sessions, which fail without an answer."""
        with Server(len(OTHERS) + 1, 1) as server:
            for head in OTHERS:
                client = server.connect()
                client.send(head)
                client.expect_end()
                self.assertEqual(bytes(client.received), b"", f"the answer to {head!r}")
            server.client()
            server.finish(dict.fromkeys(range(1, len(OTHERS) + 1), "handshake failed"))

    def test_heads_at_a_full_server(self):
        """While all places are taken, the server answers each probe, and no head that is not complete."""
        with Server(100, 1, clients=1) as server:
            server.client().expect_reply('["join","r"]', '["joined",0,1]')
            for place, head in enumerate(BEGUN):
                client = server.connect()
                client.send(head)
                self.assertEqual(answer_to(server, PROBES[place % len(PROBES)]), HEALTHY, "the answer to a probe")
                self.expect_no_answer_yet(client)
