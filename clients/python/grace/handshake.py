"""The handshake of a WebSocket: the server's address, the head of the request, and what the answer means."""

import base64
import hashlib
import re
from dataclasses import dataclass, field
from urllib.parse import SplitResult, unquote, urlsplit

from .arguments import GivenHeaders, as_headers
from .forms import DENIED, Denied, Lost

SUFFIX = b"258EAFA5-E914-47DA-95CA-C5AB0DC85B11"
PORTS = {"ws": 80, "wss": 443}
FIRST_LINE = re.compile(r"HTTP/1\.[01] (\d{3})(?: (.*))?")
REASON_LENGTH = 80
SECONDS = re.compile(r"\d{1,9}")

# What to tell people when the server is there again later, by the status of the answer.
UNAVAILABLE = {
    502: "The proxy does not reach the server.",
    503: "All places of the server are taken.",
    504: "The proxy does not reach the server.",
}


@dataclass(frozen=True)
class Address:
    """The address of a server: `ws://HOST:PORT/PATH`, `wss://` for TLS, or `HOST:PORT` alone. Before HOST may stand
    `USER:PASSWORD@`, both percent-encoded."""

    scheme: str
    host: str
    port: int
    path: str
    # The value of the field `Authorization`, or None. It is a secret.
    authorization: str | None = field(default=None, repr=False)

    @classmethod
    def read(cls, text: str, room: str | None = None) -> "Address":
        """Parses an address. With the name of a room the path ends with that name. Raises `ValueError` if the address
        is invalid; the message does not have its user and password."""
        parts, port = parts_of(text)
        if parts is None or port is None or not parts.hostname:
            raise ValueError(f"{without_user(text)} is not an address such as ws://127.0.0.1:7000/")
        path = parts.path or "/"
        if room is not None:
            path = f"{path.removesuffix('/')}/{room}"
        path += f"?{parts.query}" if parts.query else ""
        return cls(parts.scheme, parts.hostname, port, path, authorization_of(parts))

    @property
    def host_and_port(self) -> str:
        """The value of the header field `Host`."""
        return f"[{self.host}]:{self.port}" if ":" in self.host else f"{self.host}:{self.port}"


def parts_of(text: str) -> tuple[SplitResult, int] | tuple[None, None]:
    """The parts of an address, and its port. Both are None if it is invalid."""
    try:
        parts = urlsplit(text if "://" in text else f"ws://{text}")
        return parts, parts.port or PORTS[parts.scheme]
    except (KeyError, ValueError):
        return None, None


def without_user(text: str) -> str:
    """The address without its user and password, as messages may show it."""
    front, _, behind = text.rpartition("@")
    scheme, separator, _ = front.partition("://")
    return f"{scheme}{separator}{behind}" if separator else behind


def authorization_of(parts: SplitResult) -> str | None:
    """The value of the field `Authorization` for the user and the password of an address, or None if it has no user."""
    if not parts.username and not parts.password:
        return None
    user, password = unquote(parts.username or ""), unquote(parts.password or "")
    if ":" in user:
        raise ValueError("the user in the address has a colon")
    return "Basic " + base64.b64encode(f"{user}:{password}".encode()).decode()


def fields_of(address: Address, headers: GivenHeaders) -> tuple[tuple[str, str], ...]:
    """The further fields of the handshake: those of `headers`, and `Authorization` if the address has a user. Raises
    `TypeError` or `ValueError` if a field is invalid, or both have `Authorization`. No message has a value."""
    fields = as_headers(headers)
    if address.authorization is None:
        return fields
    if any(name.lower() == "authorization" for name, _ in fields):
        raise ValueError("the address has a user, and the headers have Authorization too")
    return *fields, ("Authorization", address.authorization)


def request_head(address: Address, key: str, headers: GivenHeaders) -> bytes:
    """The head that asks for a WebSocket, with this key and these further fields."""
    fields = [
        ("Host", address.host_and_port), ("Upgrade", "websocket"), ("Connection", "Upgrade"),
        ("Sec-WebSocket-Version", "13"), ("Sec-WebSocket-Key", key), *fields_of(address, headers),
    ]
    lines = [f"GET {address.path} HTTP/1.1", *(f"{name}: {value}" for name, value in fields), "", ""]
    return "\r\n".join(lines).encode()


@dataclass(frozen=True)
class Answer:
    """The head of an answer to a handshake. The names of its fields are in lower case."""

    status: int
    reason: str
    fields: dict[str, str]

    @classmethod
    def read(cls, head: bytes) -> "Answer":
        """Parses a head. Raises `Lost` if it is none of HTTP/1."""
        first, *lines = head.decode("latin-1").split("\r\n")
        found = FIRST_LINE.fullmatch(first)
        if not found:
            raise Lost("The server did not accept the WebSocket handshake.")
        reason = "".join(filter(str.isprintable, found[2] or ""))[:REASON_LENGTH].strip()
        pairs = (line.partition(":") for line in lines if line)
        return cls(int(found[1]), reason, {name.strip().lower(): value.strip() for name, _, value in pairs})

    def check(self, key: str) -> None:
        """Checks that the server accepted the handshake with this key. Raises `Denied` if it never will, otherwise
        `Lost`."""
        if self.status in DENIED:
            raise Denied(self.status, self.reason)
        if self.status in UNAVAILABLE:
            raise Lost(UNAVAILABLE[self.status], self.pause_seconds)
        accepted = base64.b64encode(hashlib.sha1(key.encode() + SUFFIX).digest()).decode()
        if self.status != 101 or self.fields.get("sec-websocket-accept") != accepted:
            words = f"{self.status} {self.reason}".rstrip()
            raise Lost(f"The server did not accept the WebSocket handshake: {words}.")

    @property
    def pause_seconds(self) -> int:
        """The seconds of the field `Retry-After`; 0 if there is none, or it has a date."""
        value = self.fields.get("retry-after", "")
        return int(value) if SECONDS.fullmatch(value) else 0
