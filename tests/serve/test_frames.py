"""Frames: fragments, pings, closes, sizes and violations of RFC 6455."""

import time
import unittest

from lib.serving import Server
from lib.websocket_client import BINARY, CLOSE, CONTINUATION, PING, PONG, TEXT, Ended, closing, frame, header

SHOW_MISSING = '["show",[9,9]]'
NO_OBJECT = '["no",1,11,"no-such-object"]'
JOIN = b'["join","r"]'
BAD_MESSAGE = '["no",0,1,"bad-message"]'
NOT_JOINED = '["no",0,2,"not-joined"]'
GROWTH = 8 * 1024


# ---- allowed


class TestAllowedFrames(unittest.TestCase):
    def test_fragments(self):
        """Three fragments form one message, even if they split a character. The server answers a ping between them."""
        with Server() as server:
            client = server.client()
            client.expect_reply(["join", "r"], '["joined",0,1]')
            request = '["new",1,[],"text",[["t","é"]]]'.encode()
            cut = request.index("é".encode()) + 1
            client.transcript.add_request(request)
            client.send(frame(TEXT, request[:cut], final=False))
            client.send(frame(PING, b"between"))
            client.send(frame(CONTINUATION, request[cut : cut + 1], final=False))
            client.send(frame(CONTINUATION, request[cut + 1 :]))
            self.assertEqual(client.read_frame(), (PONG, b"between"), "the answer to the ping")
            self.assertEqual(client.read_reply(), '["made",1,[1,1]]', "the reply")
            server.finish()

    def test_binary_fragments(self):
        """Fragments of a binary message form one message, even if some are empty."""
        with Server() as server:
            client = server.client()
            client.transcript.add_request(JOIN)
            for place, part in enumerate((b"", JOIN[:1], b"", JOIN[1:])):
                client.send(frame(CONTINUATION if place else BINARY, part, final=False))
            client.send(frame(CONTINUATION))
            self.assertEqual(client.read_reply(), '["joined",0,1]', "the reply")
            server.finish()

    def test_single_bytes(self):
        """The server answers a frame that arrives byte by byte."""
        with Server() as server:
            client = server.client()
            client.transcript.add_request(JOIN)
            for byte in frame(TEXT, JOIN):
                client.send(bytes([byte]))
                time.sleep(0.005)
            self.assertEqual(client.read_reply(), '["joined",0,1]', "the reply")
            server.finish()

    def test_pings(self):
        """The server answers a ping with a pong of the same payload, and does not answer a pong."""
        with Server() as server:
            client = server.client()
            for payload in (b"", b"x", bytes(range(125))):
                client.send(frame(PING, payload))
                self.assertEqual(client.read_frame(), (PONG, payload), "the answer to a ping")
            client.send(frame(PONG, b"unasked"))
            client.expect_reply(["join", "r"], '["joined",0,1]')
            server.finish()

    def test_close(self):
        """The server echoes a close and ends the connection, without a warning."""
        for name, payload in [
            ("1000", closing(1000)),
            ("1001 with a reason", closing(1001, "bye, é")),
            ("without a body", b""),
        ]:
            with self.subTest(name), Server(2, 2) as server:
                client = server.client()
                client.expect_reply(["join", "r"], '["joined",0,1]')
                server.client()
                client.close(payload)
                server.finish()

    def test_nothing_after_close(self):
        """The server does not execute a request after a close."""
        with Server() as server:
            client = server.client()
            client.send(frame(CLOSE, closing(1000)) + frame(TEXT, JOIN))
            self.assertEqual(client.read_frame(), (CLOSE, closing(1000)), "the answer to a close")
            client.expect_end()
            server.finish()

    def test_two_in_sequence(self):
        """The worker of a closed session serves the next client."""
        with Server(2, 1) as server:
            for site in (1, 2):
                client = server.client()
                client.expect_reply(["join", "r"], f'["joined",{site - 1},{site}]')
                client.close()
            server.finish()


# ---- sizes


class TestSizes(unittest.TestCase):
    def test_message_of(self):
        """The reply to a message of this size, mostly white space."""
        for name, size, opcode, reply in [
            ("16,384 bytes", 16_384, TEXT, NOT_JOINED),
            ("16,385 bytes", 16_385, TEXT, BAD_MESSAGE),
            ("100,000 bytes", 100_000, TEXT, BAD_MESSAGE),
            ("100,000 bytes, binary", 100_000, BINARY, BAD_MESSAGE),
            ("262,144 bytes", 262_144, TEXT, BAD_MESSAGE),
        ]:
            with self.subTest(name), Server() as server:
                client = server.client()
                client.expect_reply('["leave"]'.ljust(size), reply, opcode)
                client.expect_reply(["join", "r"], '["joined",0,1]')
                server.finish()

    def test_long_message_in_fragments(self):
        """A message of 100,000 bytes in ten fragments gets bad-message."""
        with Server() as server:
            client = server.client()
            client.transcript.add_request(b"")
            for place in range(10):
                client.send(frame(CONTINUATION if place else TEXT, b" " * 10000, final=place == 9))
            self.assertEqual(client.read_reply(), BAD_MESSAGE, "the reply")
            client.expect_reply(["join", "r"], '["joined",0,1]')
            server.finish()

    def test_binary_without_utf8(self):
        """A binary message that is not UTF-8 gets bad-message."""
        with Server() as server:
            client = server.client()
            client.expect_reply(b'["join","\xff"]', BAD_MESSAGE, BINARY)
            client.expect_reply(["join", "r"], '["joined",0,1]')
            server.finish()

    def test_long_header(self):
        """A header that declares 100 MB ends the session. The server allocates no memory for it."""
        with Server(2, 2) as server:
            other = server.client()
            other.expect_reply(["join", "r"], '["joined",0,1]')
            client = server.client()
            client.expect_reply('["leave"]'.ljust(200000), BAD_MESSAGE)
            before = server.memory()
            client.send(header(BINARY, 100_000_000) + bytes(4))
            client.expect_end()
            grown = max(after - past for past, after in zip(before, server.memory()))
            self.assertLessEqual(grown, GROWTH, f"the memory grew by {grown} KiB")
            other.expect_reply(SHOW_MISSING, NO_OBJECT)
            server.finish(warnings={2: "stream fault"})


# ---- violations that end the session


LEAVE = b'["leave"]'
FAULTS = [
    ("an unmasked frame", frame(TEXT, LEAVE, masked=False)),
    ("an unmasked ping", frame(PING, b"x", masked=False)),
    ("a reserved opcode for data", frame(3, LEAVE)),
    ("a reserved opcode for control", frame(11, LEAVE)),
    ("the first reserved bit", frame(TEXT, LEAVE, reserved=4)),
    ("the second reserved bit", frame(TEXT, LEAVE, reserved=2)),
    ("the third reserved bit", frame(PING, b"x", reserved=1)),
    ("a ping of 126 bytes", frame(PING, bytes(126))),
    ("a close of 126 bytes", frame(CLOSE, closing(1000, "x" * 124))),
    ("a close of one byte", frame(CLOSE, b"\x03")),
    ("a close with a reason that is not UTF-8", frame(CLOSE, closing(1000) + b"\xff")),
    ("a ping in fragments", frame(PING, b"x", final=False) + frame(CONTINUATION, b"y")),
    ("a continuation without a message", frame(CONTINUATION, LEAVE)),
    ("a message inside another's fragments", frame(TEXT, b"[", final=False) + frame(TEXT, LEAVE)),
    ("a length not in its shortest form", b"\x81\xfe\x00\x09" + bytes(4) + LEAVE),
    ("a length with its top bit set", b"\x82\xff\x80" + bytes(7) + bytes(4)),
    ("a text that is not UTF-8", frame(TEXT, b'["join","\xff"]')),
    ("a text that is not UTF-8 from its second fragment on",
     frame(TEXT, b"[\xc3", final=False) + frame(CONTINUATION, b"]")),
    ("a text that ends inside a character", frame(TEXT, b"[\xc3", final=False) + frame(CONTINUATION, b"")),
    ("a header that declares a terabyte", header(TEXT, 1 << 40) + bytes(4)),
    ("a frame of 262,145 bytes", frame(TEXT, LEAVE.ljust(262_145))),
    ("a frame of 300,000 bytes", frame(BINARY, LEAVE.ljust(300_000))),
    ("a message of 300,000 bytes in fragments", b"".join(
        frame(CONTINUATION if place else TEXT, b" " * 100_000, final=place == 2) for place in range(3))),
    ("a message in fragments without an end", b"".join(
        frame(CONTINUATION if place else TEXT, b" " * 100_000, final=False) for place in range(6))),
]


class TestViolations(unittest.TestCase):
    def test_ends_session(self):
        """These bytes end the session, and the server does not execute the request after them. The only worker then
        serves the next client."""
        for name, data in FAULTS:
            with self.subTest(name), Server(2, 1) as server:
                client = server.client()
                client.expect_reply(JOIN, '["joined",0,1]')
                try:
                    client.send(data + frame(TEXT, b'["new",1,[],"rect",[]]'))
                except Ended:
                    pass
                client.expect_end()
                server.client().expect_reply(JOIN, '["joined",1,2]')
                server.finish(warnings={1: "stream fault"})
