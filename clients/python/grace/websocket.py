"""A WebSocket client (RFC 6455), with TLS or without. It does not block by itself: `wait` does that for it."""

import base64
import errno
import os
import socket
import ssl
import struct
from collections.abc import Callable
from typing import Any, TypeVar

from .arguments import GivenHeaders
from .forms import Lost
from .handshake import Address, Answer, request_head

Result = TypeVar("Result")

CONTINUATION, TEXT, CLOSE, PING, PONG = 0, 1, 8, 9, 10
# A longer reply to the handshake is refused.
HEAD_BYTES = 65536


def mask(payload: bytes, key: bytes) -> bytes:
    """The payload masked with a key of four bytes."""
    stream = (key * (len(payload) // 4 + 1))[: len(payload)]
    changed = int.from_bytes(payload, "big") ^ int.from_bytes(stream, "big")
    return changed.to_bytes(len(payload), "big")


def frame_of(opcode: int, payload: bytes) -> bytes:
    """A masked frame, as a client sends it."""
    size, key = len(payload), os.urandom(4)
    if size < 126:
        length = bytes([128 | size])
    else:
        length = struct.pack("!BH", 128 | 126, size) if size < 65536 else struct.pack("!BQ", 128 | 127, size)
    return bytes([128 | opcode]) + length + key + mask(payload, key)


class WebSocket:
    """One connection. `wait` is called with the socket and whether it must become writable. It returns when the socket
    is ready, or raises `Lost`. All methods raise `Lost` if the connection has ended."""

    def __init__(self, wait: Callable[[socket.socket, bool], None]) -> None:
        # The socket, or None before the connection is opened.
        self.socket: socket.socket | None = None
        self.is_open = False
        self._wait = wait
        self._received = bytearray()
        self._fragments: bytes | None = None

    def open(self, address: Address, context: ssl.SSLContext | None, headers: GivenHeaders = ()) -> None:
        """Opens the connection to an `Address`. A `wss` address uses this TLS context. `headers` has further fields of
        the handshake, as a dictionary or as pairs. Raises `Denied` if the answer is 401, 403 or 404. Raises `TypeError`
        or `ValueError` if a field is invalid."""
        key = base64.b64encode(os.urandom(16)).decode()
        head = request_head(address, key, headers)
        self._connect(address)
        if context is not None and address.scheme == "wss":
            secure = context.wrap_socket(self._opened, server_hostname=address.host, do_handshake_on_connect=False)
            self.socket = secure
            self._retry_until_ready(secure.do_handshake)
        self._send(head)
        self._read_answer().check(key)
        self.is_open = True

    @property
    def _opened(self) -> socket.socket:
        if self.socket is None:
            raise Lost("The connection is not open.")
        return self.socket

    def send(self, text: str) -> None:
        """Sends a text message."""
        self._send(frame_of(TEXT, text.encode()))

    def read(self) -> str:
        """Waits for the next message."""
        while True:
            message = self.next_message()
            if message is not None:
                return message
            self._fill()

    def next_message(self) -> str | None:
        """The next complete message, or None if there is none yet. It answers pings."""
        while (frame := self._next_frame()) is not None:
            is_last, opcode, payload = frame
            if opcode == PING:
                self._send(frame_of(PONG, payload))
            elif opcode == CLOSE:
                self._send(frame_of(CLOSE, payload))
                raise Lost("The server closed the connection.")
            elif opcode in (TEXT, CONTINUATION):
                self._fragments = (self._fragments or b"") + payload
                if is_last:
                    message, self._fragments = self._fragments, None
                    return message.decode(errors="replace")
            elif opcode != PONG:
                raise Lost("The server sent a message that is not text.")
        return None

    def take_ready(self) -> None:
        """Reads the bytes that have arrived, without waiting for more."""
        try:
            self._receive()
        except (BlockingIOError, ssl.SSLWantReadError, ssl.SSLWantWriteError):
            pass
        except OSError as fault:
            raise Lost(failure_text(fault)) from None

    def say_close(self) -> None:
        """Sends a close frame, and waits for the server's."""
        self._send(frame_of(CLOSE, struct.pack("!H", 1000)))
        while True:
            frame = self._next_frame()
            if frame is None:
                self._fill()
            elif frame[1] == CLOSE:
                return

    def end(self) -> None:
        """Closes the socket in any state."""
        if self.socket is not None:
            self.socket.close()

    def _connect(self, address: Address) -> None:
        """Connects to the first address of the host that accepts."""
        fault: OSError | None = None
        try:
            found = socket.getaddrinfo(address.host, address.port, type=socket.SOCK_STREAM)
        except OSError as unknown:
            raise Lost(failure_text(unknown)) from None
        for family, kind, protocol, _, place in found:
            fault = self._connect_to(socket.socket(family, kind, protocol), place)
            if fault is None:
                return
        raise Lost(failure_text(fault or OSError("no address")))

    def _connect_to(self, sock: socket.socket, place: Any) -> OSError | None:
        """Connects a socket. Returns None, or the error."""
        self.socket = sock
        sock.setblocking(False)
        code = sock.connect_ex(place)
        if code in (errno.EINPROGRESS, errno.EWOULDBLOCK):
            self._wait(sock, True)
            code = sock.getsockopt(socket.SOL_SOCKET, socket.SO_ERROR)
        if code == 0:
            sock.setsockopt(socket.IPPROTO_TCP, socket.TCP_NODELAY, 1)
            return None
        sock.close()
        return OSError(code, os.strerror(code))

    def _retry_until_ready(self, call: Callable[..., Result], *arguments: object, for_writing: bool = False) -> Result:
        """Calls a method of the socket until it no longer has to wait, and returns its result."""
        while True:
            try:
                return call(*arguments)
            except ssl.SSLWantReadError:
                self._wait(self._opened, False)
            except ssl.SSLWantWriteError:
                self._wait(self._opened, True)
            except BlockingIOError:
                self._wait(self._opened, for_writing)
            except OSError as fault:
                raise Lost(failure_text(fault)) from None

    def _send(self, data: bytes) -> None:
        while data:
            data = data[self._retry_until_ready(self._opened.send, data, for_writing=True):]

    def _fill(self) -> None:
        """Waits for more bytes."""
        self._retry_until_ready(self._receive)

    def _receive(self) -> None:
        """Reads the bytes that have arrived, and with TLS all that the TLS layer has buffered."""
        data = self._opened.recv(65536)
        if not data:
            raise Lost("The connection ended.")
        self._received += data
        if isinstance(self.socket, ssl.SSLSocket) and self.socket.pending():
            self._received += self.socket.recv(self.socket.pending())

    def _take(self, count: int) -> bytes:
        data = bytes(self._received[:count])
        del self._received[:count]
        return data

    def _read_answer(self) -> Answer:
        """Waits for the answer to the handshake."""
        while b"\r\n\r\n" not in self._received:
            if len(self._received) > HEAD_BYTES:
                raise Lost("The server did not accept the WebSocket handshake.")
            self._fill()
        return Answer.read(self._take(self._received.index(b"\r\n\r\n") + 4))

    def _next_frame(self) -> tuple[bool, int, bytes] | None:
        """The next complete frame, or None: whether it is the last of its message, its opcode, and its payload."""
        size, start = len(self._received), 2
        if size < start:
            return None
        first, length = self._received[:2]
        if length >= 126:
            start = 4 if length == 126 else 10
            if size < start:
                return None
            (length,) = struct.unpack("!H" if start == 4 else "!Q", self._received[2:start])
        if size < start + length:
            return None
        return bool(first & 128), first & 15, self._take(start + length)[start:]


def failure_text(fault: OSError) -> str:
    """A sentence about a failed connection."""
    return f"The connection failed: {getattr(fault, 'strerror', None) or fault}."
