"""The notes of a room: the client's own one, and all that the server has. Also when to send what about them."""

import math
import time
from collections.abc import Callable
from typing import TypeGuard

from .forms import ProtocolFault

# How long after a `note` a changed one is sent, and the same one again.
CHANGED_SECONDS = 0.1
SAME_SECONDS = 20


class Notes:
    """Decides when the next request about notes is due, once the program uses them. Callers hold the room's lock.
    `clock` returns the time in seconds."""

    def __init__(self, clock: Callable[[], float] = time.monotonic) -> None:
        # What the program last set.
        self.own = ""
        # The notes that the server has, by site in ascending order.
        self.all: dict[int, str] = {}
        self._clock = clock
        # What the session has last set as its note, and when.
        self._sent, self._sent_at = "", -math.inf
        # A session that has asked for notes hears of them by its waits, so the client never stops using them.
        self._is_used = False
        self._is_in = False
        # Whether the notes may have changed since the server last told them.
        self._is_stale = True

    def use(self) -> None:
        """The program uses notes from now on."""
        self._is_used = True

    def enter(self) -> None:
        """The session has entered a room, in which it has no note yet."""
        self._is_in = self._is_stale = True
        self._sent, self._sent_at = "", -math.inf

    def leave(self) -> bool:
        """The session is in no room any more. Returns whether the notes have changed."""
        self._is_in = False
        return self._replace({})

    def give_up(self) -> None:
        """The server does not know notes, so the session sends nothing more about them."""
        self._is_in = False

    def may_have_changed(self) -> None:
        """A wait brought no entry: some note may have changed."""
        self._is_stale = True

    def due(self) -> float:
        """The time from which the next request is due, as the clock has it; infinite if none is."""
        if not self._is_used or not self._is_in:
            return math.inf
        return -math.inf if self._is_stale else self._own_due()

    def is_due(self) -> bool:
        """Whether to send a request now."""
        return self.due() <= self._clock()

    def _own_due(self) -> float:
        """The time from which the own note is to be sent."""
        is_same = self.own == self._sent
        if is_same and not self.own:
            return math.inf
        return self._sent_at + (SAME_SECONDS if is_same else CHANGED_SECONDS)

    def next_request(self) -> list[str]:
        """The request that is due: the own note, or else a question for all. The reply to both has all notes."""
        now = self._clock()
        if self._own_due() > now:
            return ["notes"]
        self._sent, self._sent_at = self.own, now
        return ["note", self.own]

    def receive(self, pairs: object) -> bool:
        """Takes the notes of a reply. Returns whether they have changed. Raises `ProtocolFault` if they are
        malformed."""
        if not isinstance(pairs, tuple) or not all(map(is_note, pairs)):
            raise ProtocolFault("The server sent malformed notes.")
        self._is_stale = False
        return self._replace(dict(pairs))

    def _replace(self, notes: dict[int, str]) -> bool:
        is_changed = notes != self.all
        self.all = notes
        return is_changed


def is_note(pair: object) -> TypeGuard[tuple[int, str]]:
    """Whether it is a pair of a site and a text."""
    match pair:
        case (int(), str()):
            return True
    return False
