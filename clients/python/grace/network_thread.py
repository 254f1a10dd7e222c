"""The thread that talks to the server for a room."""

import contextlib
import math
import selectors
import socket
import ssl
import sys
import threading
import time
from collections import deque
from collections.abc import Callable, Iterator, Sequence
from dataclasses import dataclass
from typing import Any

from .change import Change, Noted
from .connection_state import ConnectionState
from .entrance import Entrance, Following, Session, nobody_in
from .forms import (
    Denied, Lost, Message, ProtocolFault, Refused, RenewedAs, operation_of, read_text, request_of, write_text,
)
from .handshake import Address
from .loading import load_all
from .notes import Notes
from .pause import WaitTimer
from .room_options import RoomOptions
from .room_state import GOES_ON, RoomState
from .transfer import draw_same, drawing_of
from .websocket import WebSocket

# The listeners of each event. Each takes the news of its event.
Listeners = dict[str, list[Callable[[Any], object]]]

SHORTER_RECORD = "The room was started again."
CLOSED = "The room was closed."
LOOKING = "The room is full. You can look at it, but not change it."

# A connection that lasted this long resets the backoff. A connection that breaks sooner does not: otherwise the client
# would reconnect too often.
STEADY_SECONDS = 5
# How long a server may hold the reply to a wait.
HOLD_SECONDS = 25
# How long a client that may only look at the room waits before it looks again.
LOOK_SECONDS = 2
# How long to wait for the server's close frame.
CLOSE_SECONDS = 1


@dataclass(frozen=True)
class Owed:
    """What the server owes: the time from which it owes it, and how many seconds the client then waits for it."""

    since: float
    seconds: float


class NetworkThread:
    """Connects, joins, sends changes, waits for news, and reconnects. `room_state` is the client's copy of the room,
    which `lock` protects, and `notes` too. `listeners` has the listeners of each event."""

    def __init__(
        self, address: Address, name: str, options: RoomOptions, lock: threading.RLock, listeners: Listeners,
    ) -> None:
        self.address, self.options = address, options
        self.first_name = name
        self.entrance = Entrance(name, options.back_seconds, Session(
            self._request, self._send_pull, self._receive_page, self._wait_outside,
        ))
        self.room_state = RoomState(self.emit)
        self.lock = lock
        # Notified when something changes that a caller may wait for.
        self.news = threading.Condition(lock)
        self.listeners = listeners
        self.notes = Notes()
        self.events: deque[tuple[str, object]] = deque()
        self.wait_timer = WaitTimer(options.pause_seconds, options.longest_pause_seconds)
        self.connection_state = ConnectionState(self.emit, self._pending_time, self._silent_time)
        self.is_closing = False
        # The error that closed the room, or None.
        self.fault: Exception | None = None
        # How many refreshes callers have asked for, and how many of them are done.
        self.refreshes_asked, self.refreshes_done = 0, 0
        self._socket: WebSocket | None = None
        # Whether it is sending the close frame.
        self._is_leaving = False
        # What the server owes, oldest first, and the replies that have arrived but are not processed.
        self._owed: deque[Owed] = deque()
        self._replies: deque[str] = deque()
        # When the server last sent what it owed.
        self._answered = -math.inf
        # The place from which the outstanding wait asks, or None.
        self._wait_from: int | None = None
        self._tries = 0
        # Whether the session is in the room.
        self._is_in = False
        self._wakes, self._waker = socket.socketpair()
        self._wakes.setblocking(False)
        self._waker.setblocking(False)
        self._selector = selectors.DefaultSelector()
        self._selector.register(self._wakes, selectors.EVENT_READ)
        self.thread = threading.Thread(target=self._run, name=f"grace {name}", daemon=True)

    # ---- for other threads, which hold the lock

    def emit(self, event: str, news: object) -> None:
        """Queues an event for the listeners, which run in this thread."""
        self.events.append((event, news))
        self.news.notify_all()
        self.wake()

    def wake(self) -> None:
        """Wakes the thread up because there is something to do."""
        try:
            self._waker.send(b"!")
        except OSError:
            # The pipe is full of wake-ups already, or the thread has ended.
            pass

    def changed(self) -> None:
        """There is a new change to send."""
        self.wait_timer.hurry()
        self.connection_state.update()
        self.wake()

    def end(self, words: str = CLOSED) -> None:
        """Closes the room."""
        if self.is_closing:
            return
        self.is_closing = True
        self._leave_notes()
        self.connection_state.leave("closed", words)
        self.room_state.close()
        self.wake()

    def _pending_time(self) -> float | None:
        pending = self.room_state.pending
        return time.monotonic() - pending[0].made if pending else None

    def _silent_time(self) -> float:
        now = time.monotonic()
        return max((now - max(owed.since, self._answered) for owed in self._owed), default=0)

    # ---- events and waiting

    @contextlib.contextmanager
    def _locked(self) -> Iterator[None]:
        """Takes the lock to change the room's state. Raises `Lost` if the room was closed in the meantime."""
        with self.lock:
            if self.is_closing:
                raise Lost(CLOSED)
            yield

    def _handle_events(self) -> None:
        """Calls the listeners of queued events. Raises `Lost` if the room is to be closed."""
        with self.lock:
            self.connection_state.wake()
        self._deliver()
        if self.is_closing:
            raise Lost(CLOSED)

    def _deliver(self) -> None:
        while True:
            with self.lock:
                if not self.events:
                    return
                event, news = self.events.popleft()
                called = list(self.listeners[event])
            for listener in called:
                self._call(listener, news)

    def _call(self, listener: Callable[[Any], object], news: object) -> None:
        try:
            listener(news)
        except Exception:
            # A listener's error is reported as an uncaught exception. The connection stays open.
            sys.excepthook(*sys.exc_info())

    def _select(self, sock: socket.socket | None, for_writing: bool, until: float) -> bool:
        """Waits until a socket is ready, a wake-up comes, or the time `until` is reached. Returns whether the socket is
        ready."""
        if sock is not None:
            self._selector.register(sock, selectors.EVENT_WRITE if for_writing else selectors.EVENT_READ)
        try:
            seconds = max(0, min(until, self.connection_state.due) - time.monotonic())
            ready = self._selector.select(None if seconds == math.inf else seconds)
        finally:
            if sock is not None:
                self._selector.unregister(sock)
        found = [key.fileobj for key, _ in ready]
        if self._wakes in found:
            self._wakes.recv(4096)
        return sock in found

    def _wait(self, sock: socket.socket, for_writing: bool) -> None:
        """Waits until a socket is ready. Raises `Lost` if that takes too long."""
        while True:
            if not self._is_leaving:
                self._handle_events()
            if self._select(sock, for_writing, self._deadline()):
                return
            self._check_deadline()

    def _sleep(self, seconds: float, is_over: Callable[[], bool] = lambda: False) -> None:
        """Waits this long, or until `is_over` returns true. Raises `Lost` if the connection ends in the meantime, or a
        reply takes too long."""
        until = time.monotonic() + seconds
        while not is_over() and time.monotonic() < until:
            self._handle_events()
            if is_over():
                return
            opened = self._socket
            sock = opened.socket if opened is not None else None
            is_ready = self._select(sock, False, min(until, self._deadline()))
            if opened is not None and is_ready:
                opened.take_ready()
                self._take_replies(opened)
            self._check_deadline()

    def _take_replies(self, opened: WebSocket) -> None:
        while (message := opened.next_message()) is not None:
            if len(self._replies) == len(self._owed):
                raise ProtocolFault("The server sent a message without a request.")
            self._replies.append(message)

    def _expect(self, hold: float = 0) -> None:
        """The server owes a reply, which it may hold this long."""
        self._owed.append(Owed(time.monotonic() + hold, self.options.reply_seconds))

    def _settle(self) -> None:
        """The server has sent the oldest thing that it owed."""
        self._owed.popleft()
        self._answered = time.monotonic()

    def _deadline(self) -> float:
        return min((max(owed.since, self._answered) + owed.seconds for owed in self._owed), default=math.inf)

    def _check_deadline(self) -> None:
        if time.monotonic() >= self._deadline():
            raise Lost("The server did not answer in time.")

    # ---- the connection

    def _run(self) -> None:
        while not self.is_closing:
            try:
                self._connect()
                self._serve_and_reset_backoff()
            except Lost as fault:
                self._disconnect()
                self._wait_for_next_try(fault)
            except Exception as fault:
                # The next attempt would fail in the same way.
                self._close_because_of(fault)
        self._close()

    def _wait_for_next_try(self, fault: Lost) -> None:
        waits = self.options.retry_seconds
        wait = max(waits[min(self._tries, len(waits) - 1)], min(fault.pause_seconds, max(waits)))
        self._tries += 1
        try:
            with self._locked():
                self._leave_notes()
                self.connection_state.leave("waiting", f"{fault} Trying again.")
            self._sleep(wait)
        except Lost:
            # The room is to be closed.
            pass

    def _close_because_of(self, fault: Exception) -> None:
        is_known = isinstance(fault, (Denied, Refused, ProtocolFault))
        with self.lock:
            if not self.is_closing:
                self.fault = fault
                self.end(str(fault) if is_known else f"The server sent an invalid message: {fault!r}")

    def _disconnect(self) -> None:
        """Ends the connection. A room that is closed sends a close frame first."""
        if self._socket is None:
            return
        self._forget_requests()
        try:
            if self.is_closing and self._socket.is_open:
                self._is_leaving = True
                self._owed.append(Owed(time.monotonic(), CLOSE_SECONDS))
                self._socket.say_close()
        except Lost:
            pass
        self._forget_requests()
        self._socket.end()
        self._socket = None

    def _forget_requests(self) -> None:
        self._owed.clear()
        self._replies.clear()
        self._wait_from = None

    def _close(self) -> None:
        self._disconnect()
        self._deliver()
        self._selector.close()
        self._wakes.close()
        self._waker.close()

    def _connect(self) -> None:
        """Connects and joins. Then it pulls what the record has more, which shows which changes the server accepted."""
        with self._locked():
            self.connection_state.connect()
            self._expect()
        self._socket = WebSocket(self._wait)
        context = self.options.context
        if context is None and self.address.scheme == "wss":
            context = ssl.create_default_context()
        self._socket.open(self.address, context, self.options.headers)
        self._settle()
        self._is_in = False
        self.room_state.is_entering = True
        # All that a room has which has ended is in its record.
        if not self.room_state.has_ended and not self._rejoin():
            self._join_or_look()
        self._finish_entering()

    def _join_or_look(self) -> None:
        """Joins as a new site. If the room takes nobody new, and the option says so, the client looks at it."""
        try:
            self._join()
        except Refused as refusal:
            if refusal.word not in ("room-full", "record-full") or not self.options.look_if_full:
                raise
            self._look()
        else:
            self.room_state.is_looking = False

    def _look(self) -> None:
        """Reads the room as a site that is free, and leaves at once, so that the person whose site it is can come back.
        It makes no change: that person may have unsent changes with the same numbers."""
        self.room_state.is_looking = True
        try:
            _, at, *_ = self.entrance.back_as_any(self.entrance.name)
        except RenewedAs:
            raise Lost(GOES_ON) from None
        self._is_in = True
        is_other_record = self._is_other_record(at)
        with self._locked():
            if is_other_record:
                self.room_state.discard_room()
            self.room_state.count(at)
        self._load()
        self._leave()

    def _keep_looking(self) -> None:
        """Looks again and again, until the room goes on in another one."""
        while self.room_state.is_looking:
            self._sleep(LOOK_SECONDS, lambda: self.refreshes_asked > self.refreshes_done)
            refreshes = self.refreshes_asked
            self._look()
            self._finish_refreshes(refreshes)
            self.room_state.is_entering = self.room_state.has_ended
            if self.room_state.has_ended or not self.connection_state.is_in:
                self._finish_entering()

    def _finish_entering(self) -> None:
        """Goes on in the next room while this one has ended. Then shows what was loaded."""
        while self.room_state.has_ended:
            self._go_on()
        with self._locked():
            self.options.site = None
            self.room_state.is_entering = False
            is_first = not self.room_state.is_loaded
            self.room_state.is_loaded = True
            self.room_state.show()
            if is_first:
                self.emit("progress", self.room_state.progress())
            if self.room_state.is_looking:
                self.connection_state.enter(LOOKING)
            else:
                self.notes.enter()
                self.connection_state.enter(f"Connected as site {self.room_state.site}.")

    def _rejoin(self) -> bool:
        """Rejoins as this client's old site. Returns false if the client must join as a new one."""
        old_site = self.room_state.site or self.options.site
        if old_site is None:
            return False
        back = self._request_back(old_site)
        if back is None:
            return False
        self._is_in = True
        _, at, site, made = back
        with self._locked():
            self.room_state.length = at
            self.room_state.site = site
        if self._is_other_record(at):
            self._start_anew()
        elif self._loads_own(site, made):
            return True
        self._leave()
        return False

    def _loads_own(self, site: int, made: int) -> bool:
        """Loads the record. Returns false if another client was in the room as this site, and made operations that this
        one has not seen. In a room that has ended, that does not matter: the pending changes get a site of nobody. A
        client that was given its site and has not entered yet has seen none."""
        has_seen = bool(self.room_state.record) and self.options.site is None
        self._load()
        pending, drawing = self.room_state.pending, self.room_state.drawing
        following = pending[0].name[1] if pending else drawing.count(site) + 1
        if not has_seen or following == made + 1:
            return True
        if self.room_state.has_ended:
            self._become_nobody()
        return self.room_state.has_ended

    def _become_nobody(self) -> None:
        with self._locked():
            self.room_state.become_site(nobody_in(self.room_state.record))

    def _start_anew(self) -> None:
        """Discards the room's state: the server has lost it. The client asks for the first room again."""
        with self._locked():
            self.room_state.discard_room()
            self.entrance.name = self.first_name

    def _leave(self) -> None:
        if self._is_in:
            with self._locked():
                self._leave_notes()
            self._request(["leave"], "left")
            self._is_in = False

    def _leave_notes(self) -> None:
        """The session is in no room any more."""
        if self.notes.leave():
            self._emit_notes()

    def _emit_notes(self) -> None:
        self.emit("notes", Noted(dict(self.notes.all)))

    def _request_back(self, site: int) -> Message | None:
        """The reply to `back`, or None if the client cannot rejoin as its old site."""
        given = self.options.site
        try:
            is_first = not self.room_state.record
            back = self.entrance.back_newest(site) if is_first else self.entrance.back(site)
        except RenewedAs as renewed:
            self._leave_behind(renewed.room)
            return None
        except Refused as refusal:
            is_lost = refusal.word == "no-such-room" and self.entrance.name != self.first_name
            if given is not None or refusal.word != "no-such-site" and not is_lost:
                raise
            self._start_anew()
            return None
        if back is None and given is not None:
            raise Refused("site-in-use")
        return back

    def _join(self) -> None:
        """Joins as a new site."""
        joined = self._request_join()
        if joined is None:
            return
        self._is_in = True
        _, at, site = joined
        is_other_record = self._is_other_record(at)
        with self._locked():
            if is_other_record:
                self.room_state.discard_room()
            self.room_state.count(at + 1)
        self._load()
        with self._locked():
            self.room_state.become_site(site)

    def _request_join(self) -> Message | None:
        """The reply to `join`. It is None if the room has ended while the server has the client's previous connection.
        The client has then read it to its end, as a site that it never had."""
        has_site = self.room_state.site is not None
        if not self.room_state.record:
            return self.entrance.join_newest(has_site)
        with contextlib.suppress(RenewedAs):
            return self.entrance.join(has_site)
        try:
            _, at, *_ = self.entrance.back_as_any(self.entrance.name)
        except RenewedAs as renewed:
            self._leave_behind(renewed.room)
            return self.entrance.join_newest(False)
        self._is_in = True
        with self._locked():
            self.room_state.length = max(self.room_state.length, at)
        self._load_end()
        self._become_nobody()
        return None

    def _load_end(self) -> None:
        """Loads a record that has ended."""
        self._load()
        if not self.room_state.has_ended:
            raise ProtocolFault("The server ended a room whose record has no end.")

    def _go_on(self) -> None:
        """Goes on in the room's successor."""
        with self._locked():
            self.room_state.is_entering = True
            self.connection_state.connect(GOES_ON)
        self._leave()
        self._until_released()
        following = self._enter_successor()
        if following is None:
            self._join_or_look()
        elif not self._go_on_in(following):
            self._leave_behind(following.name)
            self._leave()
            self._join_or_look()

    def _enter_successor(self) -> Following | None:
        """Enters the room's successor. Returns None if the client could not take its pending changes along."""
        try:
            following = self.entrance.enter_successor()
        except RenewedAs as renewed:
            self._leave_behind(renewed.room)
            return None
        except Refused as refusal:
            if refusal.word != "no-such-room":
                raise
            self._start_anew()
            return None
        finally:
            # The replies count the entries of the next room.
            self.room_state.length = len(self.room_state.record)
        self._is_in = following.is_in
        return following

    def _go_on_in(self, following: Following) -> bool:
        """Makes the successor the client's room, as soon as there is no hold. Returns false if it draws something
        else."""
        record = self.room_state.record
        old, drawing = drawing_of(record), drawing_of(following.record[:record[-1][1]])
        if not draw_same(old, drawing):
            return False
        while True:
            self._until_released()
            with self._locked():
                # Another thread may hold the room again.
                if self.room_state.holds == 0:
                    self.room_state.go_on_in(following, self.entrance.name, old, drawing)
                    self.entrance.name = following.name
                    self.wait_timer.hurry()
                    self._notify()
                    return True

    def _until_released(self) -> None:
        """Waits until there is no hold."""
        self._sleep(math.inf, lambda: self.room_state.holds == 0)

    def _leave_behind(self, room: str) -> None:
        """Goes on in the newest room of the drawing, where the old one can no longer be read."""
        with self._locked():
            self.room_state.leave_behind(self.entrance.name, room)
            self.entrance.name = room

    def _wait_outside(self, words: str, seconds: float) -> None:
        """Says why the client is not in the room yet, and waits this long."""
        with self._locked():
            if self.connection_state.words != words:
                self.connection_state.connect(words)
        self._sleep(seconds)

    def _load(self) -> None:
        """Pulls until the client has all entries."""
        self._report_progress()
        load_all(self._progress, self._send_pull, self._receive_page, self._take)

    def _report_progress(self) -> None:
        with self._locked():
            if self.room_state.lacks and not self.room_state.is_loaded:
                self.emit("progress", self.room_state.progress())

    def _progress(self) -> tuple[int, int]:
        return len(self.room_state.record), self.room_state.length

    def _send_pull(self, start: int) -> None:
        self._start(["pull", start])

    def _receive_page(self, start: int) -> tuple[Message, ...]:
        return self._entries(self._finish("entries"), start)

    def _take(self, entries: tuple[Message, ...]) -> None:
        self._append(entries)
        self._report_progress()

    def _serve_and_reset_backoff(self) -> None:
        start = time.monotonic()
        try:
            self._serve()
        finally:
            if time.monotonic() - start >= STEADY_SECONDS:
                self._tries = 0

    def _serve(self) -> None:
        """Sends changes and waits for news until the connection is lost. At most one wait is outstanding."""
        self._keep_looking()
        while True:
            self._handle_events()
            if self.room_state.has_ended:
                self._finish_entering()
            with self.lock:
                change = self.room_state.pending[0] if self.room_state.pending else None
                refreshes = self.refreshes_asked
                is_question_due = self.notes.is_due()
            if is_question_due:
                self._ask_for_notes()
                continue
            if self._wait_from is None and self._is_wait_due():
                self._send_wait()
            if change is not None:
                self._send(change)
            elif refreshes > self.refreshes_done:
                self._pull()
                self._finish_refreshes(refreshes)
            else:
                self._await_news()

    def _is_wait_due(self) -> bool:
        """Whether to ask for news. While changes are pending, the numbers of their replies say whether there are
        any."""
        if self.refreshes_asked > self.refreshes_done:
            return False
        return self.room_state.lacks or not self.room_state.pending and self.wait_timer.time_left() <= 0

    def _await_news(self) -> None:
        """Waits until there is something to send, the outstanding wait is answered, or the next one is due."""
        due = self.notes.due()
        seconds = due - time.monotonic()

        def has_work() -> bool:
            return self._has_work() or self.notes.due() < due

        if self._wait_from is None:
            self._sleep(min(seconds, self.wait_timer.time_left()), has_work)
            return
        self._sleep(seconds, lambda: bool(self._replies) or has_work())
        if self._replies and self._wait_from is not None:
            self._finish_wait(self._wait_from)

    def _has_work(self) -> bool:
        """Whether there is a change or a refresh to send."""
        return bool(self.room_state.pending) or self.refreshes_asked > self.refreshes_done

    def _finish_refreshes(self, refreshes: int) -> None:
        """These many refreshes are done, unless there is more to pull."""
        with self.lock:
            if not self.room_state.lacks:
                self.refreshes_done = refreshes
                self.news.notify_all()

    # ---- requests

    def _start(self, request: str | Sequence[object], hold: float = 0) -> None:
        """Sends a request. The server may hold the reply this long."""
        self._expect(hold)
        self._opened.send(request if isinstance(request, str) else write_text(request))

    @property
    def _opened(self) -> WebSocket:
        if self._socket is None:
            raise Lost(CLOSED)
        return self._socket

    def _finish(self, kind: str) -> Message:
        """The reply to the oldest outstanding request. Checks that it is of this kind."""
        reply: Message = read_text(self._replies.popleft() if self._replies else self._opened.read())
        self._settle()
        match reply:
            case ("no", int(at), _, str(word)):
                if word == "renewed":
                    self.room_state.length = max(self.room_state.length, at)
                raise Refused(word)
            case ("renewed", _, str(room)):
                raise RenewedAs(room)
            case (_, int(at), *_) if reply[0] == kind:
                with self._locked():
                    self.room_state.length = max(self.room_state.length, at)
                return reply
        raise ProtocolFault(f"The server sent another reply instead of {kind}: {reply!r:.200}")

    def _request(self, request: str | Sequence[object], kind: str) -> Message:
        """Sends a request and waits for the reply. A server that holds a wait answers that first."""
        self._start(request)
        if self._wait_from is not None:
            self._finish_wait(self._wait_from, is_message_behind=True)
        return self._finish(kind)

    def _send_wait(self) -> None:
        """Sends a wait for the entries that the record lacks."""
        self._wait_from = len(self.room_state.record)
        self.wait_timer.sent()
        self._start(["wait", self._wait_from], HOLD_SECONDS)

    def _finish_wait(self, start: int, is_message_behind: bool = False) -> None:
        """Shows what the outstanding wait brings."""
        self._wait_from = None
        try:
            entries = self._entries(self._finish("entries"), start)
        except Refused as refusal:
            # Coming back finds the other record.
            raise Lost(SHORTER_RECORD) if refusal.word == "too-far" else refusal
        if not entries:
            with self._locked():
                self.notes.may_have_changed()
                if not is_message_behind:
                    self.wait_timer.brought_nothing()
        self._append(entries)

    def _ask_for_notes(self) -> None:
        """Sends the request about notes that is due, and takes the notes of the reply."""
        with self._locked():
            request = self.notes.next_request()
        try:
            *_, pairs = self._request(request, "notes")
        except Refused as refusal:
            if refusal.word != "bad-message":
                raise
            with self._locked():
                self.notes.give_up()
            return
        with self._locked():
            if self.notes.receive(pairs):
                self.wait_timer.hurry()
                self._emit_notes()

    def _send(self, change: Change) -> None:
        """Sends a change and processes the reply."""
        operation = change.operation
        try:
            _, at, *_ = self._request(request_of(operation), "made" if operation.word == "new" else "taken")
            with self._locked():
                self.room_state.accepted(change, at)
                self._notify()
        except Refused as refusal:
            if refusal.word == "renewed":
                return self._load_end()
            with self._locked():
                self.room_state.withdraw(change, refusal)
                self._notify()

    def _notify(self) -> None:
        self.connection_state.update()
        self.news.notify_all()

    def _pull(self) -> None:
        """Pulls the next page and shows it."""
        start = len(self.room_state.record)
        entries = self._page(start)
        # A wait that was answered before it may have brought the first ones.
        self._append(entries[len(self.room_state.record) - start:])

    def _page(self, start: int) -> tuple[Message, ...]:
        return self._entries(self._request(["pull", start], "entries"), start)

    def _entries(self, reply: Message, start: int) -> tuple[Message, ...]:
        """The entries of a page from this one on."""
        match reply:
            case (_, _, place, tuple(entries)) if place == start:
                return entries
        raise ProtocolFault("The server sent the wrong page.")

    def _append(self, entries: tuple[Message, ...]) -> None:
        """Shows new entries."""
        with self._locked():
            self.room_state.append(entries)
            self._notify()
            if entries:
                self.wait_timer.hurry()
            elif self.room_state.lacks:
                raise ProtocolFault("The server sent an empty page.")

    def _is_other_record(self, at: int) -> bool:
        """Whether the server has a different record than the one that this client pulled, as after a restart without
        `--keep`. It compares the last operation, because its state vector tells records apart. `at` is how many entries
        the server had when this client joined."""
        record = self.room_state.record
        if at < len(record):
            return True
        if not record:
            return False
        operations = [place for place, entry in enumerate(record) if operation_of(entry) is not None]
        last = operations[-1] if operations else 0
        pulled = record[last:]
        return any(one != other for one, other in zip(self._page(last), pulled))
