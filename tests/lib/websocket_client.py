"""A WebSocket client by RFC 6455, over the standard library alone. It can send what the RFC forbids, and accepts
nothing that the RFC forbids. A wait longer than SECONDS raises TimeoutError. The server answers at once; the bound
allows for stalls of a loaded machine."""

import base64
import collections
import hashlib
import os
import socket
import struct

CONTINUATION, TEXT, BINARY, CLOSE, PING, PONG = 0, 1, 2, 8, 9, 10
# How many bytes of the length follow the second byte of a frame, and the least length that needs so many.
LENGTH_BYTES = {126: 2, 127: 8}
LEAST_LENGTHS = {0: 0, 2: 126, 8: 65_536}
SECONDS = 30
SUFFIX = b"258EAFA5-E914-47DA-95CA-C5AB0DC85B11"


class Ended(Exception):
    """The server ended the connection."""

    def __str__(self):
        return "the server ended the connection"


class Fault(Exception):
    """The other side violated the protocol."""


# ---- bytes to send


def head(key, path="/", version=13):
    """Returns the head that requests a WebSocket."""
    return (
        f"GET {path} HTTP/1.1\r\nHost: localhost\r\nUpgrade: websocket\r\nConnection: Upgrade\r\n"
        f"Sec-WebSocket-Key: {key}\r\nSec-WebSocket-Version: {version}\r\n\r\n"
    ).encode()


def new_key():
    """Returns a random key for a handshake."""
    return base64.b64encode(os.urandom(16)).decode()


def accepted(key):
    """Returns the accept value for this key."""
    return base64.b64encode(hashlib.sha1(key.encode() + SUFFIX).digest()).decode()


def header(opcode, length, final=True, reserved=0, masked=True):
    """Returns the first bytes of a frame, up to its mask."""
    first, bit = final << 7 | reserved << 4 | opcode, masked << 7
    if length < 126:
        return struct.pack("!BB", first, bit | length)
    if length < 65536:
        return struct.pack("!BBH", first, bit | 126, length)
    return struct.pack("!BBQ", first, bit | 127, length)


def mask(payload, key):
    """Applies the mask to the payload. Applied again, it restores the payload."""
    stream = (key * (len(payload) // 4 + 1))[: len(payload)]
    changed = int.from_bytes(payload, "big") ^ int.from_bytes(stream, "big")
    return changed.to_bytes(len(payload), "big")


def frame(opcode, payload=b"", masked=True, key=None, **options):
    """Returns a frame, with this mask or a random one unless `masked` is false. The options are those of its header."""
    front = header(opcode, len(payload), masked=masked, **options)
    if not masked:
        return front + payload
    key = key or os.urandom(4)
    return front + key + mask(payload, key)


def closing(code, reason=""):
    """Returns the payload of a close."""
    return struct.pack("!H", code) + reason.encode()


# ---- received bytes


Frame = collections.namedtuple("Frame", "first second payload")


def take_frame(received, longest=None):
    """Takes the next frame off the received bytes, and its mask off the payload. Returns None if it is not complete.
    Raises Fault once its length is known, if that is above the longest or not in its shortest form."""
    if len(received) < 2:
        return None
    first, second = received[:2]
    long_by = LENGTH_BYTES.get(second & 127, 0)
    front = 2 + long_by + (4 if second & 128 else 0)
    if len(received) < front:
        return None
    length = int.from_bytes(received[2 : 2 + long_by], "big") if long_by else second & 127
    if length < LEAST_LENGTHS[long_by] or longest is not None and length > longest:
        raise Fault(f"a frame declares {length} bytes in {long_by} bytes of length")
    if len(received) < front + length:
        return None
    payload = bytes(received[front : front + length])
    if second & 128:
        payload = mask(payload, bytes(received[front - 4 : front]))
    del received[: front + length]
    return Frame(first, second, payload)


# ---- a connection


class Connection:
    """A connection to a server, before or after the handshake."""

    def __init__(self, address, receive_buffer=None):
        self.socket = socket.socket()
        self.socket.settimeout(SECONDS)
        if receive_buffer:
            self.socket.setsockopt(socket.SOL_SOCKET, socket.SO_RCVBUF, receive_buffer)
            # Then the system of the sender does not let its own buffer grow later.
            self.socket.setsockopt(socket.IPPROTO_TCP, socket.TCP_MAXSEG, 536)
        self.socket.connect(address)
        self.socket.setsockopt(socket.IPPROTO_TCP, socket.TCP_NODELAY, 1)
        self.received = bytearray()

    def send(self, data):
        """Sends these bytes."""
        try:
            self.socket.sendall(data)
        except ConnectionError:
            raise Ended from None

    def fill(self):
        """Waits for more bytes."""
        try:
            data = self.socket.recv(65536)
        except ConnectionError:
            raise Ended from None
        if not data:
            raise Ended
        self.received += data

    def take(self, count):
        """Returns the next `count` bytes."""
        while len(self.received) < count:
            self.fill()
        data = bytes(self.received[:count])
        del self.received[:count]
        return data

    def open(self, path="/"):
        """Performs the handshake."""
        key = new_key()
        self.send(head(key, path))
        self.read_answer(key)

    def read_answer(self, key):
        """Reads the answer to the handshake with this key."""
        while b"\r\n\r\n" not in self.received:
            self.fill()
        answer = self.take(self.received.index(b"\r\n\r\n") + 4).decode("latin-1")
        status, *lines = answer.split("\r\n")[:-2]
        fields = {name.strip().lower(): value.strip() for name, _, value in (line.partition(":") for line in lines)}
        if status.split(" ")[:2] != ["HTTP/1.1", "101"]:
            raise Fault(f"the answer to the handshake has status {status!r}")
        if fields.get("upgrade", "").lower() != "websocket" or fields.get("connection", "").lower() != "upgrade":
            raise Fault(f"the answer to the handshake has the fields {fields}")
        if fields.get("sec-websocket-accept") != accepted(key):
            raise Fault("the answer to the handshake is for another key")
        if "sec-websocket-extensions" in fields or "sec-websocket-protocol" in fields:
            raise Fault("the answer to the handshake has an extension or protocol that the client did not request")

    def read_frame(self):
        """Reads the next frame. Returns its opcode and payload."""
        while len(self.received) < 2:
            self.fill()
        first, second = self.received[:2]
        opcode = first & 15
        if not first & 128 or first & 112 or second & 128 or opcode not in (TEXT, CLOSE, PING, PONG):
            raise Fault(f"a frame begins with {first:02x} {second:02x}")
        if opcode != TEXT and second & 127 > 125:
            raise Fault(f"a control frame begins with {first:02x} {second:02x}")
        while (found := take_frame(self.received)) is None:
            self.fill()
        return opcode, found.payload

    def hang_up(self):
        """Disconnects without a close."""
        self.socket.close()
