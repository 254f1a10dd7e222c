"""A WebSocket server that answers one client with given replies, to test what `grace watch` makes of them."""

import re
import socket
import threading

from lib.checks import check
from lib.frame_reader import FrameReader
from lib.websocket_client import CLOSE, SECONDS, TEXT, accepted, closing, frame

HEAD = (
    "HTTP/1.1 101 Switching Protocols\r\nUpgrade: websocket\r\nConnection: Upgrade\r\n"
    "Sec-WebSocket-Accept: {}\r\n\r\n"
)


def read_key(client):
    """Reads a client's head from its socket. Returns its key."""
    data = b""
    while not data.endswith(b"\r\n\r\n"):
        part = client.recv(65536)
        if not part:
            raise AssertionError(f"the client's head ends early: {data!r:.200}")
        data += part
    found = re.search(rb"(?i)\r\nsec-websocket-key: *(\S+)", data)
    if not found:
        raise AssertionError(f"the client's head has no key: {data!r:.200}")
    return found[1].decode()


class ScriptedServer:
    """Accepts one client in a thread of its own. Answers each of its messages by the next of the replies, and a close
    by a close. With `most` it sends at most this many bytes and then hangs up, and with `piece` it sends them in pieces
    of this size. With `hangs_up` it hangs up at a message for which no reply is left. After a run `requests` has the
    client's messages, and `is_closed` says whether it sent a close of 1000."""

    def __init__(self, replies, most=None, piece=None, hangs_up=False):
        self.replies = list(replies)
        self.hangs_up = hangs_up
        self.left = most
        self.piece = piece
        self.requests = []
        self.is_closed = False
        self.fault = None

    def __enter__(self):
        self.listener = socket.create_server(("127.0.0.1", 0))
        self.listener.settimeout(SECONDS)
        self.name = "{}:{}".format(*self.listener.getsockname())
        self.thread = threading.Thread(target=self.serve, daemon=True)
        self.thread.start()
        return self

    def __exit__(self, *_):
        self.listener.close()

    def end(self):
        """Waits until the client is served."""
        self.thread.join(SECONDS)
        if self.thread.is_alive():
            raise AssertionError("the client is still served")
        if self.fault:
            raise self.fault

    def serve(self):
        """Serves the client to its end."""
        try:
            self.client, _ = self.listener.accept()
            with self.client:
                self.client.settimeout(SECONDS)
                self.client.setsockopt(socket.IPPROTO_TCP, socket.TCP_NODELAY, 1)
                self.answer_all()
        except ConnectionError:
            pass
        except Exception as fault:
            self.fault = fault

    def answer_all(self):
        """Answers the handshake and each message, until the client ends the connection, the session is closed or no
        bytes are left."""
        has_more = self.send(HEAD.format(accepted(read_key(self.client))).encode())
        reader = FrameReader()
        while has_more and reader.end is None and (data := self.client.recv(65536)):
            for opcode, payload in reader.feed(data):
                answer = self.answer_to(opcode, payload)
                has_more = has_more and (bool(answer) or not self.hangs_up) and self.send(answer, self.piece)

    def answer_to(self, opcode, payload):
        """Returns the frame that answers this message or close, or nothing when no reply is left."""
        if opcode == CLOSE:
            self.is_closed = payload == closing(1000)
            return frame(CLOSE, payload, masked=False)
        check.assertEqual(opcode, TEXT, "the opcode")
        self.requests.append(payload.decode())
        return frame(TEXT, self.replies.pop(0).encode(), masked=False) if self.replies else b""

    def send(self, data, piece=None):
        """Sends as many of these bytes as are left, in pieces of this size or in one. Returns whether it sent all."""
        count = len(data) if self.left is None else min(len(data), self.left)
        size = piece or count or 1
        for place in range(0, count, size):
            self.client.sendall(data[place : min(place + size, count)])
        if self.left is not None:
            self.left -= count
        return count == len(data)
