"""Pauses between requests that are repeated."""

import time

GROWTH = 1.25
# A wait that is answered sooner than this, without news and without a message behind it, was not held.
AT_ONCE_SECONDS = 1


class Pause:
    """A pause that is 1.25 times as long after each use, up to the longest. In seconds."""

    def __init__(self, shortest: float, longest: float) -> None:
        self.shortest, self.longest = shortest, max(shortest, longest)
        self._next = shortest

    def take(self) -> float:
        """The length of the next pause. The one after it is longer."""
        seconds = self._next
        self._next = min(seconds * GROWTH, self.longest)
        return seconds

    def reset(self) -> None:
        """The next pause is the shortest again."""
        self._next = self.shortest


class WaitTimer:
    """Decides when the next wait for news is due: at once, unless the server does not hold waits."""

    def __init__(self, shortest: float, longest: float) -> None:
        self._pause = Pause(shortest, longest)
        self._sent = 0.0
        self._next = 0.0

    def hurry(self) -> None:
        """Someone changed the room: the next wait is due, and pauses are short again."""
        self._pause.reset()
        self._next = 0

    def sent(self) -> None:
        """A wait is sent."""
        self._sent = time.monotonic()

    def brought_nothing(self) -> None:
        """The wait, behind which the client sent nothing, brought no entry. If the server did not hold it, there is a
        pause."""
        now = time.monotonic()
        if now - self._sent < AT_ONCE_SECONDS:
            self._next = now + self._pause.take()

    def time_left(self) -> float:
        """The time until the next wait, in seconds; 0 or less if it is due."""
        return self._next - time.monotonic()
