"""How a client asks to be let into a room: as the site that it was, or as a new one. A room that was renewed goes on in
its successor."""

import math
import time
from collections.abc import Callable, Sequence
from dataclasses import dataclass
from typing import TypeVar

from .forms import Lost, Message, ProtocolFault, Refused, RenewedAs
from .loading import load_all
from .pause import Pause
from .room_names import is_after, successor_of

Result = TypeVar("Result")

STILL_CONNECTED = "The server still has your previous connection. Trying again."
NOT_SERVED = "The server cannot open this room now: it may have no place for one more. Trying again."
NOT_THERE_YET = "The server has not opened the next room of this drawing yet. Trying again."
CANNOT_JOIN = "The server still has your previous connection, and the room is too full for a new one."
NEXT_IS_FULL = "The next room of this drawing is full."
IN_USE = "Others are reading the room."

# The first and the longest pause between attempts to rejoin as a site that the server says is in use.
REJOIN_SECONDS = 0.1
LONGEST_REJOIN_SECONDS = 1
# How often to ask for a room that the server cannot serve, or has not opened yet.
NOT_SERVED_SECONDS = 1
# The server names the newest room, so more steps than this are no renewals.
MOST_STEPS = 8

# The refusals of a join after which the client asks again over the same connection, and what it says then. The first
# says that the record has ended, and its successor is not open yet.
ASKED_AGAIN = {"renewed": NOT_THERE_YET, "not-served": NOT_SERVED}


@dataclass(frozen=True)
class Following:
    """The successor of a room, as the client has loaded it. The client is in it as the site `site`. If it could only
    read it, it is not in it, and nobody was in it as this site."""

    name: str
    site: int
    record: list[Message]
    is_in: bool


@dataclass(frozen=True)
class Session:
    """What asks for the client. `request` sends a request and returns a reply of this kind. `send_pull` asks for the
    entries from a place on, and `receive_page` returns those of the oldest pull. `wait` says why the client is not in
    the room yet, and waits."""

    request: Callable[[Sequence[object], str], Message]
    send_pull: Callable[[int], None]
    receive_page: Callable[[int], tuple[Message, ...]]
    wait: Callable[[str, float], None]


def nobody_in(record: Sequence[Message]) -> int:
    """A site that nobody was in the room with this record."""
    return len([entry for entry in record if entry[0] == "join"]) + 1


class Entrance:
    """Asks again while the server has the client's old session, or cannot serve the room."""

    def __init__(self, name: str, back_seconds: float, session: Session) -> None:
        self.name = name
        self._back_seconds = back_seconds
        self._session = session

    def back(self, site: int) -> Message | None:
        """The reply to `back`, or None if the site is still in use when the time is over. While the server cannot serve
        the room, that time has not begun. Raises `Refused` or `RenewedAs`."""
        end = time.monotonic() + self._back_seconds
        pause = Pause(REJOIN_SECONDS, LONGEST_REJOIN_SECONDS)
        while True:
            try:
                return self._ask(["back", self.name, site], "back")
            except Refused as refusal:
                if refusal.word not in ("site-in-use", "not-served"):
                    raise
                is_served = refusal.word == "site-in-use"
            if is_served:
                if time.monotonic() >= end:
                    return None
                self._session.wait(STILL_CONNECTED, pause.take())
            else:
                self._session.wait(NOT_SERVED, NOT_SERVED_SECONDS)
                end = time.monotonic() + self._back_seconds

    def back_newest(self, site: int) -> Message | None:
        """The reply to `back` as a site of the newest room, or None as for `back`. Raises `Refused`."""
        return self.follow(lambda: self._back_unless_ended(site))

    def back_as_any(self, name: str) -> Message:
        """The reply to `back` as any site that is free, to read a room that has ended. Raises `RenewedAs`."""
        end = time.monotonic() + self._back_seconds
        pause = Pause(REJOIN_SECONDS, LONGEST_REJOIN_SECONDS)
        while time.monotonic() < end:
            reply = self._back_as_first_free(name)
            if reply is not None:
                return reply
            self._session.wait(f"{IN_USE} Trying again.", pause.take())
        raise Lost(IN_USE)

    def join(self, has_site: bool) -> Message:
        """The reply to `join`. In a full room a client that has a site keeps trying to rejoin. Raises `Refused` or
        `RenewedAs`."""
        return self._join(self.name, CANNOT_JOIN if has_site else None)

    def join_newest(self, has_site: bool) -> Message:
        """The reply to `join` of the newest room."""
        return self.follow(lambda: self.join(has_site))

    def follow(self, ask: Callable[[], Result]) -> Result:
        """The result of a call, which is repeated with the name of a newer room while it raises `RenewedAs`."""
        for _ in range(MOST_STEPS):
            try:
                return ask()
            except RenewedAs as renewed:
                self.name = renewed.room
        raise ProtocolFault("The server names ever more rooms.")

    def enter_successor(self) -> Following:
        """Joins the room's successor, and loads it. If that has ended too, reads it as a site that it never had. Raises
        `RenewedAs` if the successor can no longer be read, and `Refused` if the server does not open it."""
        name = successor_of(self.name)
        if name is None:
            raise Refused("renewed")
        try:
            _, at, site = self._join(name, NEXT_IS_FULL, time.monotonic() + self._back_seconds)
            return Following(name, site, self._load(at + 1), True)
        except RenewedAs:
            _, at, *_ = self.back_as_any(name)
        record = self._load(at)
        self._session.request(["leave"], "left")
        return Following(name, nobody_in(record), record, False)

    def _back_unless_ended(self, site: int) -> Message | None:
        """The reply to `back`, or None as for `back`. Raises `RenewedAs` if the room has ended."""
        try:
            back = self.back(site)
        except Refused as refusal:
            if refusal.word == "no-such-site" and site > 1:
                # It may be a site of a newer room.
                self._follow_end(self._back_as_first_free(self.name))
            raise
        self._follow_end(back)
        return back

    def _follow_end(self, back: Message | None) -> None:
        """Raises `RenewedAs` if the room to which a client came back has ended. The server let it in to read that. Does
        nothing without a reply."""
        if back is None:
            return
        *_, entries = self._session.request(["pull", back[1] - 1], "entries")
        if entries[0][0] == "next":
            self._session.request(["leave"], "left")
            self.join(False)
            raise ProtocolFault("The server let a client join a room that has ended.")

    def _load(self, length: int) -> list[Message]:
        """Pulls this many entries of the room."""
        record: list[Message] = []
        load_all(lambda: (len(record), length), self._session.send_pull, self._receive_page, record.extend)
        return record

    def _receive_page(self, start: int) -> tuple[Message, ...]:
        entries = self._session.receive_page(start)
        if not entries:
            raise ProtocolFault("The server sent an empty page.")
        return entries

    def _back_as_first_free(self, name: str) -> Message | None:
        """The reply to the first `back` as a site that is not in use; None if all are."""
        site = 1
        while True:
            try:
                return self._ask(["back", name, site], "back")
            except Refused as refusal:
                if refusal.word == "no-such-site" and site > 1 or refusal.word == "not-served":
                    return None
                if refusal.word != "site-in-use":
                    raise
            site += 1

    def _join(self, name: str, full_words: str | None, opens_until: float = -math.inf) -> Message:
        """Asks to join. `full_words` says that the client tries again later where the room is full. Until `opens_until`
        a room that is not there may still be opened."""
        while True:
            try:
                return self._ask(["join", name], "joined")
            except Refused as refusal:
                if refusal.word in ("room-full", "record-full") and full_words is not None:
                    raise Lost(full_words) from None
                may_open = refusal.word == "no-such-room" and time.monotonic() < opens_until
                if refusal.word not in ASKED_AGAIN and not may_open:
                    raise
                words = ASKED_AGAIN.get(refusal.word, NOT_THERE_YET)
            self._session.wait(words, NOT_SERVED_SECONDS)

    def _ask(self, request: Sequence[object], kind: str) -> Message:
        try:
            return self._session.request(request, kind)
        except RenewedAs as renewed:
            _, name, *_ = request
            if not is_after(renewed.room, str(name)):
                raise ProtocolFault(f"The server names {renewed.room} after {name}.") from None
            raise
