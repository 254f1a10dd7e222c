"""The parts of the messages: names, operations, entries, refusal words, and the limits."""

import json
from dataclasses import dataclass
from types import SimpleNamespace
from typing import Any

# A name of an operation or an object, an identifier of a version, a state vector, a value, and attributes.
Name = tuple[int, int]
VersionId = tuple[Name, ...]
Seen = tuple[tuple[int, int], ...]
Value = int | str
Attributes = tuple[tuple[str, Value], ...]
# A message, or an entry of a record: JSON with tuples for lists. What it holds depends on its first word.
Message = tuple[Any, ...]

# The largest number or size of each, as the server enforces it.
LIMITS = SimpleNamespace(
    sites=256, entries=16384, objects=8192, changes=1024, keys=64, versions=32, attributes=16, message_bytes=16384,
    text_bytes=256, word_bytes=32, room_bytes=64,
)

# One sentence for people for each refusal. The server's words come first, in the order of their codes from 1.
WORDS = {
    "bad-message": "The server could not read a message.",
    "not-joined": "You are not in a room yet.",
    "already-joined": "You are already in a room.",
    "no-such-room": "The server has no room with this name.",
    "room-full": "The room is full, so nobody new can join it.",
    "record-full": "The room's record is full, so nothing can be changed any more.",
    "wrong-seq": "The change has the wrong number.",
    "own-count": "The change miscounts your own earlier changes.",
    "ahead": "The change builds on changes that the server does not have.",
    "not-closed": "The change leaves out changes that it depends on.",
    "no-such-object": "This object does not exist.",
    "no-such-version": "This version does not exist any more, so please choose again.",
    "object-full": "This object has reached its limit of changes.",
    "too-many-keys": "This object has reached its limit of attributes.",
    "too-many-versions": "This object has reached its limit of versions.",
    "too-many-objects": "The room has reached its limit of objects.",
    "too-far": "The room has fewer entries than you asked for.",
    "gone": "Somebody deleted this version, so please choose another one.",
    "no-such-site": "The room does not know your site.",
    "site-in-use": "Another connection is using your site.",
    "not-served": "The server cannot serve this room now.",
    "renewed": "This drawing has ended and goes on in another room.",
    "closed": "The room was closed before the server accepted the change.",
    "withdrawn": "The server refused an earlier change to this object.",
    "another-room": "The room was started again without this change.",
    "too-long": "The change is too long for one message.",
    "read-only": "The room takes nobody new, so you can look at it, but not change it.",
}
CODES = {word: code for code, word in enumerate(list(WORDS)[:22], 1)}

# Why the answer to a handshake ends a room, by its status.
DENIED = {
    401: "The server needs a user and a password that it knows",
    403: "The server does not let you in",
    404: "The server has no room at this address",
}


class GraceError(Exception):
    """An error of this package. Each error that a room reports, or that its changes end with, is one of these. Invalid
    arguments raise `TypeError` or `ValueError` instead."""


class Refused(GraceError):
    """The server or this module refused a change or a join, which then has no effect.

    `word` is the server's word, or `closed`, `withdrawn`, `another-room`, `too-long` or `read-only`. `code` is the
    server's code, from 1 to 22, or 0 for the module's own words. `str` gives a sentence for people."""

    def __init__(self, word: str) -> None:
        super().__init__(WORDS.get(word, f"The server refused the request: {word}."))
        self.word = word
        self.code = CODES.get(word, 0)


class RenewedAs(GraceError):
    """The reply to a join or a back of a room that goes on in another one. `room` is the newest room of the drawing."""

    def __init__(self, room: str) -> None:
        super().__init__(f"The drawing goes on in {room}.")
        self.room = room


class ProtocolFault(GraceError):
    """The server sent something that the protocol does not allow."""


class Denied(GraceError):
    """The server, or a proxy in front of it, answered the handshake by 401, 403 or 404. Another attempt would get the
    same answer.

    `status` is the number and `reason` the text of the answer's first line, such as 401 and `Unauthorized`. `str` gives
    a sentence for people."""

    def __init__(self, status: int, reason: str) -> None:
        super().__init__(f"{DENIED[status]}: {status} {reason}".rstrip() + ".")
        self.status, self.reason = status, reason


class Lost(GraceError):
    """The connection failed: it could not be opened, it broke, or a reply took too long. `pause_seconds` is how long
    the server asks the client to wait before the next attempt."""

    def __init__(self, words: str, pause_seconds: float = 0) -> None:
        super().__init__(words)
        self.pause_seconds = pause_seconds


@dataclass(frozen=True, slots=True)
class Operation:
    """A creation (`word` is `new`) or a change (`put` or `drop`). All lists in it are tuples, and so are names."""

    word: str
    name: Name
    seen: Seen
    object: Name
    kind: str | None = None
    version: VersionId | None = None
    attributes: Attributes | None = None


def frozen(value: Any) -> Any:
    """A JSON value with tuples in place of lists."""
    return tuple(map(frozen, value)) if isinstance(value, list) else value


def read_text(text: str) -> Any:
    """Parses a message, with tuples for lists. Raises `ProtocolFault` if it is not JSON."""
    try:
        return frozen(json.loads(text))
    except ValueError as fault:
        raise ProtocolFault(f"The server sent an invalid message: {fault}") from None


def write_text(value: object) -> str:
    """Writes a message as JSON without white space."""
    return json.dumps(value, separators=(",", ":"), ensure_ascii=False)


def operation_of(entry: Message) -> Operation | None:
    """Reads the operation from an entry of a record; None if the entry is a join or the end of the record. The old
    word `set`, for one attribute, gives a put. Raises `ProtocolFault` if the entry is malformed."""
    match entry:
        case ("join" | "next", _):
            return None
        case ("new", name, seen, kind, attributes):
            return Operation("new", name, seen, name, kind=kind, attributes=attributes)
        case ("put", name, seen, target, version, attributes):
            return Operation("put", name, seen, target, version=version, attributes=attributes)
        case ("set", name, seen, target, version, key, value):
            return Operation("put", name, seen, target, version=version, attributes=((key, value),))
        case ("drop", name, seen, target, version):
            return Operation("drop", name, seen, target, version=version)
    raise ProtocolFault(f"invalid entry: {write_text(entry):.200}")


def entry_of(operation: Operation) -> Message:
    """The entry that the server appends to the record for this operation."""
    front: Message = (operation.word, operation.name, operation.seen)
    if operation.word == "new":
        return *front, operation.kind, operation.attributes
    rest: Message = (operation.attributes,) if operation.word == "put" else ()
    return *front, operation.object, operation.version, *rest


def request_of(operation: Operation) -> str:
    """The request that asks the server for this operation. Raises `Refused` (`too-long`) if it is longer than a message
    may be."""
    word, (_, number), *rest = entry_of(operation)
    text = write_text((word, number, *rest))
    if len(text.encode()) > LIMITS.message_bytes:
        raise Refused("too-long")
    return text
