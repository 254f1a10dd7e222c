"""The connection state that a room reports: as a word, as a sentence, and how long the oldest change has been
pending."""

import math
import time
from collections.abc import Callable

from .change import State

SAVING_SECONDS = 1
SILENT_SECONDS = 3
# How often to report again, while changes are pending or the server is silent.
REPEAT_SECONDS = 1

CONNECTING = "Connecting."
SAVING = "Your last changes are not saved yet."
SILENT = "The server is not answering. All its places may be taken. Please wait."


class ConnectionState:
    """The connection state. `pending_time` returns how long the oldest change has been pending, or None. `silent_time`
    returns how long the server has owed a reply. Both are in seconds. Callers hold the room's lock, and call `wake` at
    the time `due`."""

    def __init__(
        self, emit: Callable[[str, object], None], pending_time: Callable[[], float | None],
        silent_time: Callable[[], float],
    ) -> None:
        self.state, self.words = "connecting", CONNECTING
        self.due = math.inf
        self._emit = emit
        self._pending_time = pending_time
        self._silent_time = silent_time
        self._open_words = ""

    @property
    def is_in(self) -> bool:
        """Whether the client has joined the room."""
        return self.state in ("open", "saving")

    def connect(self, words: str = CONNECTING) -> None:
        """An attempt to connect starts, or continues with another sentence."""
        self._wake_in(SILENT_SECONDS)
        self._set("connecting", words)

    def enter(self, words: str) -> None:
        """The client has joined the room."""
        self._open_words = words
        self.due = math.inf
        waited = self._pending_time()
        if waited is not None and waited >= SAVING_SECONDS:
            self._report_saving(waited)
        else:
            self._set("open", words)
            self.update()

    def leave(self, state: str, words: str) -> None:
        """The connection was lost, or the room was closed."""
        self.due = math.inf
        self._set(state, words)

    def update(self) -> None:
        """Updates the state after a change was made or answered."""
        if not self.is_in:
            return
        waited = self._pending_time()
        if waited is not None:
            if self.due == math.inf:
                self._wake_in(SAVING_SECONDS - waited)
        elif self.state == "saving":
            self.due = math.inf
            self._set("open", self._open_words)

    def wake(self) -> None:
        """Reports the state again if that is due."""
        if time.monotonic() < self.due:
            return
        self.due = math.inf
        waited = self._pending_time()
        if self.state == "connecting":
            self._update_silence()
        elif waited is None:
            return
        elif self.state == "saving" or waited >= SAVING_SECONDS:
            self._report_saving(waited)
        else:
            self._wake_in(SAVING_SECONDS - waited)

    def _update_silence(self) -> None:
        """While connecting, the sentence says whether the server is silent."""
        left = SILENT_SECONDS - self._silent_time()
        is_silent = left <= 0
        self._wake_in(REPEAT_SECONDS if is_silent else left)
        if is_silent != (self.words == SILENT):
            self._set("connecting", SILENT if is_silent else CONNECTING)

    def _report_saving(self, waited: float) -> None:
        left = SILENT_SECONDS - self._silent_time()
        # Wake up when the silence becomes long enough for the other sentence.
        self._wake_in(min(left, REPEAT_SECONDS) if left > 0 else REPEAT_SECONDS)
        self._set("saving", SAVING if left > 0 else SILENT, waited)

    def _wake_in(self, seconds: float) -> None:
        self.due = time.monotonic() + seconds

    def _set(self, state: str, words: str, seconds: float = 0) -> None:
        self.state, self.words = state, words
        self._emit("state", State(state, words, seconds))
