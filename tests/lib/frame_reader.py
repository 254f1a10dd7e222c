"""A model of how a server reads a client's bytes after the handshake, by RFC 6455 and the message limit of
docs/PROTOCOL.md. It uses no code of a server."""

import codecs

from lib.websocket_client import BINARY, CLOSE, CONTINUATION, PING, PONG, TEXT, Fault, take_frame

# The most bytes of a message over all its fragments, and of the payload of a ping, a pong or a close.
LONGEST_MESSAGE = 262_144
LONGEST_CONTROL = 125

CLOSED = "closed"
FAULT = "fault"


def is_utf8(data):
    """Returns whether the bytes are UTF-8."""
    try:
        data.decode()
        return True
    except UnicodeDecodeError:
        return False


class FrameReader:
    """Reads the bytes of one client. `end` is None while the session continues, CLOSED after the client's close, and
    FAULT after a violation. A frame that is too long is a violation once its header is complete; any other, once the
    frame is."""

    def __init__(self):
        self.buffer = bytearray()
        self.opcode = None
        self.parts = bytearray()
        self.end = None

    def feed(self, data):
        """Reads more bytes. Returns the opcode and payload of each message, ping and close that they complete."""
        self.buffer += data
        found = []
        try:
            while self.end is None:
                frame = take_frame(self.buffer, LONGEST_MESSAGE)
                if frame is None:
                    break
                found += self.handle_frame(*frame)
        except Fault:
            self.end = FAULT
        return found

    def may_end(self):
        """Returns whether an incomplete frame or message is already invalid. A server may end the session at once, or
        when the rest arrives."""
        front = [*self.buffer[:2], 0x80][:2]
        try:
            if self.buffer:
                self.check_front(*front)
            if self.opcode == TEXT:
                codecs.getincrementaldecoder("utf-8")().decode(bytes(self.parts))
        except (Fault, UnicodeDecodeError):
            return True
        return False

    def check_front(self, first, second):
        """Raises Fault unless these may be the first two bytes of the next frame."""
        opcode, is_final = first & 15, first & 128
        if first & 0x70 or not second & 128:
            raise Fault("reserved bits, or no mask")
        if opcode in (CLOSE, PING, PONG):
            if not is_final or second & 127 > LONGEST_CONTROL:
                raise Fault("a control frame that is fragmented or too long")
        elif opcode not in (CONTINUATION, TEXT, BINARY) or (opcode == CONTINUATION) != (self.opcode is not None):
            raise Fault("an opcode out of place")

    def handle_frame(self, first, second, payload):
        """Returns what the frame completes: opcodes with payloads that need an answer."""
        self.check_front(first, second)
        opcode = first & 15
        if opcode in (CLOSE, PING, PONG):
            return self.handle_control(opcode, payload)
        return self.handle_data(opcode, bool(first & 128), payload)

    def handle_control(self, opcode, payload):
        """Handles a control frame. A pong needs no answer; a close also ends the session."""
        if opcode == PONG:
            return []
        if opcode == CLOSE:
            if len(payload) == 1 or not is_utf8(payload[2:]):
                raise Fault("the payload of a close")
            self.end = CLOSED
        return [(opcode, payload)]

    def handle_data(self, opcode, is_final, payload):
        """Handles a fragment. Returns the message if this is its last fragment."""
        self.opcode = self.opcode or opcode
        self.parts += payload
        if len(self.parts) > LONGEST_MESSAGE:
            raise Fault("a message that is too long")
        if not is_final:
            return []
        opcode, message = self.opcode, bytes(self.parts)
        self.opcode, self.parts = None, bytearray()
        if opcode == TEXT and not is_utf8(message):
            raise Fault("a text that is not UTF-8")
        return [(opcode, message)]
