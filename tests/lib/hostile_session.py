"""One hostile connection: what it sends, the replies that it expects, how it ends, and what the server may log about
it."""

import collections
import json
import re
import socket
import struct

import lib.hostile_bytes as bad
from lib.answers import check_reply, request_of
from lib.checks import check
from lib.frame_reader import CLOSED, FAULT, FrameReader
from lib.records import Transcript, compact
from lib.websocket_client import BINARY, CLOSE, PING, PONG, TEXT, Ended, closing, head

# The longest wait, in seconds.
WAIT = 60
# How long a session that never reads waits for the server to accept more bytes, in seconds.
STUCK = 0.2
# In a shared room, sites from this number on belong to hostile sessions.
FIRST_SITE = 3
HANDSHAKE_FAILED = "handshake failed"
STREAM_FAULT = "stream fault"
# The close codes that RFC 6455 allows on the wire, which the server echoes. It answers other codes with 1002; for codes
# that RFC 6455 reserves, either answer is allowed.
SENDABLE = {1000, 1001, 1002, 1003, 1007, 1008, 1009, 1010, 1011, *range(3000, 5000)}
KEPT_FOR_LATER = range(1012, 3000)
# A header field.
FIELD = re.compile(rb"(?m)^([!-9;-~]+):[ \t]*([^\r\n]*?)[ \t]*\r?$")


def may_add(request):
    """Returns whether these bytes may be a request that adds an entry or enters a room."""
    value = request_of(request)
    return value is not None and len(value) > 1 and value[0] in ("join", "back", "new", "put", "drop")


class HostileTranscript(Transcript):
    """The requests and replies of a hostile session. It keeps the unanswered requests that the server may have
    executed."""

    def finish(self):
        """Records that the session has ended."""
        self.hung_up = True
        self.waiting = collections.deque(filter(may_add, self.waiting))


def requested_key(data):
    """Returns the key of a head that may ask for a WebSocket. Raises CheckFailed if it cannot."""
    fields = {name.lower(): value for name, value in FIELD.findall(data)}
    is_upgrade = re.match(rb"GET \S+ HTTP/1\.1\r?\n", data) and b"upgrade" in fields.get(b"connection", b"").lower()
    if not is_upgrade or fields.get(b"upgrade", b"").lower() != b"websocket":
        raise AssertionError("the server opened a WebSocket that the client did not request")
    if fields.get(b"sec-websocket-version") != b"13" or b"sec-websocket-key" not in fields:
        raise AssertionError("the server opened a WebSocket for a head without key or of another version")
    return fields[b"sec-websocket-key"].decode("latin-1")


class HostileSession:
    """A connection that `connect` opens; its argument is the size of the receive buffer or None. `source` makes the
    random choices. `rooms` names the rooms: shared with honest clients, for hostile sessions, and for the loud ones."""

    def __init__(self, connect, source, rooms):
        self.connect, self.source, self.rooms = connect, source, rooms
        self.client = None
        self.reader = FrameReader()
        self.expected = collections.deque()
        self.replies = collections.Counter()
        self.sent = bytearray()
        self.is_open = self.is_closed = self.is_gone = False
        self.is_cause_ambiguous = False

    # ---- the beginning

    def begin(self, receive_buffer=None):
        """Connects."""
        self.client = self.connect(receive_buffer)
        self.client.transcript = HostileTranscript()
        self.client.socket.settimeout(WAIT)

    def open(self, receive_buffer=None):
        """Connects and performs the handshake."""
        self.begin(receive_buffer)
        key = bad.key(self.source)
        self.send(head(key))
        self.client.read_answer(key)
        self.is_open = True

    def room(self):
        """Returns the name of a room to enter, rarely a shared one."""
        return self.source.choice(self.rooms.shared if self.source.random() < 0.03 else self.rooms.hostile)

    def entering_request(self):
        """Returns a join, or a back as any site except those of honest clients."""
        room = self.room()
        if self.source.random() < 0.6:
            return ["join", room]
        # A few sites are requested often, so that some are in use.
        end = self.source.choice((FIRST_SITE + 5, 257))
        return ["back", room, self.source.randrange(FIRST_SITE if room in self.rooms.shared else 1, end)]

    def enter(self):
        """Enters a room in most cases, and sends up to two operations."""
        if self.source.random() < 0.8:
            self.ask(self.entering_request())
        for _ in range(self.source.randrange(3)):
            self.ask(self.next_request())

    # ---- requests

    def next_request(self):
        """Returns the next request of an honest client: it creates an object and then changes it."""
        site, made = self.client.transcript.site or 1, self.client.transcript.made
        if made == 0:
            return ["new", 1, [], "rect", [["x", 0]]]
        return ["put", made + 1, [[site, made]], [site, 1], [], [["x", self.source.randrange(9)]]]

    def frame(self, request, opcode=None):
        """Returns the frame of a request, which is a value or bytes."""
        data = compact(request).encode() if isinstance(request, list) else request
        return bad.frame(self.source, opcode or bad.data_opcode(self.source), data)

    def ask(self, request, reply=None):
        """Sends a request and reads up to its reply. The reply must equal `reply` if that is given."""
        self.send(self.frame(request), reply)
        self.catch_up()

    # ---- bytes to and from the server

    def send(self, data, reply=None):
        """Sends bytes, sometimes in pieces, even if the server may have disconnected. Each message that they complete
        must get `reply`, if that is given."""
        self.note(data, reply)
        self.put(bad.cut(self.source, data) if self.source.random() < 0.2 else [data])

    def put(self, pieces):
        """Sends each piece by itself."""
        for piece in pieces:
            if not self.is_gone:
                try:
                    self.client.send(piece)
                except Ended:
                    self.is_gone = True

    def note(self, data, reply=None):
        """Records the bytes as sent, and the answers that they require as expected."""
        self.sent += data
        if self.is_open:
            for opcode, payload in self.reader.feed(data):
                self.expected.append((opcode, payload, reply))
                if opcode in (TEXT, BINARY):
                    self.client.transcript.add_request(payload)

    def take(self):
        """Reads one frame and compares it with the next expected answer."""
        opcode, payload = self.client.read_frame()
        if not self.expected:
            raise AssertionError(f"unexpected frame {opcode} {payload!r:.200}")
        opcode_sent, content, reply = self.expected.popleft()
        if opcode_sent == PING:
            check.assertEqual((opcode, payload), (PONG, content), "the answer to a ping")
        elif opcode_sent == CLOSE:
            check.assertEqual(opcode, CLOSE, "the kind of the answer to a close")
            self.take_close(content, payload)
        else:
            check.assertEqual(opcode, TEXT, "the kind of the answer to a message")
            self.take_reply(content, payload.decode(), reply)

    def take_close(self, request, answer):
        """Checks the answer to a close."""
        self.is_closed = True
        code = int.from_bytes(request[:2], "big")
        if not request or code in SENDABLE:
            check.assertEqual(answer, request, "the answer to a close")
        elif code not in KEPT_FOR_LATER:
            check.assertEqual(answer[:2], closing(1002), "the code that answers a close")

    def take_reply(self, request, text, reply):
        """Checks the reply to a message."""
        transcript = self.client.transcript
        check_reply(request, transcript.room is not None, text)
        value = json.loads(text)
        self.replies[value[3] if value[0] == "no" else value[0]] += 1
        if reply is not None:
            check.assertEqual(text, reply, f"the reply to {request!r:.100}")
        transcript.add_reply(text)

    def catch_up(self):
        """Reads all expected answers."""
        self.read_while(lambda: self.expected)

    def read_while(self, condition):
        """Reads frames while the condition holds and the connection is open."""
        try:
            while condition():
                self.take()
        except Ended:
            self.is_gone = True

    def flood(self, data, most):
        """Sends the bytes repeatedly and reads nothing, until the server accepts no more or `most` bytes are sent. The
        last copy may be incomplete. Then disconnects."""
        self.client.socket.settimeout(STUCK)
        try:
            for _ in range(most // len(data)):
                self.note(data)
                self.client.socket.sendall(data)
        except TimeoutError:
            pass
        except ConnectionError:
            raise AssertionError("the server ended a session that only sends requests") from None
        self.reset_or_close()

    # ---- the end

    def finish(self):
        """Ends the connection, or waits for the server to end it if it must. Raises CheckFailed if the server ended a
        valid session or continued an invalid one."""
        if self.is_open and self.is_gone and self.reader.end is None and not self.reader.may_end():
            raise AssertionError("the server ended a valid session")
        if not self.is_open or self.reader.end is None:
            self.leave()
        elif self.reader.end == FAULT and self.source.random() < 0.2:
            self.reset_or_close()
        else:
            self.read_while(lambda: True)
        if (self.reader.end == CLOSED) != self.is_closed:
            raise AssertionError("the server did not answer a close")
        self.client.socket.close()

    def leave(self):
        """Disconnects without a close, sometimes after reading all answers."""
        if self.source.random() < 0.5:
            self.reset_or_close()
        else:
            self.shut_down_writing()
            self.read_while(lambda: True)

    def shut_down_writing(self):
        """Shuts down the writing half, so that the server reads the end of the stream."""
        try:
            self.client.socket.shutdown(socket.SHUT_WR)
        except OSError:
            self.is_gone = True

    def reset_or_close(self):
        """Disconnects, by a reset or by an ordinary end. After a reset the server may lose sent bytes. Returns whether
        it was a reset."""
        is_reset = self.source.random() < 0.5
        if is_reset:
            self.client.socket.setsockopt(socket.SOL_SOCKET, socket.SO_LINGER, struct.pack("ii", 1, 0))
        self.client.socket.close()
        return is_reset

    def read_answer(self):
        """Reads the answer to the handshake. Returns whether there was one; only a request for a WebSocket may get
        one."""
        self.shut_down_writing()
        try:
            while b"\r\n\r\n" not in self.client.received:
                self.client.fill()
        except Ended:
            if self.client.received:
                answer = bytes(self.client.received)
                raise AssertionError(f"unexpected answer to a handshake: {answer!r:.200}") from None
            return
        self.client.read_answer(requested_key(bytes(self.sent)))
        self.is_open = True

    def causes(self):
        """Returns the causes that the server may log for this session. The set is empty if it must log none."""
        if self.is_cause_ambiguous:
            return {HANDSHAKE_FAILED, STREAM_FAULT}
        if self.is_closed:
            return set()
        return {STREAM_FAULT if self.is_open else HANDSHAKE_FAILED}
