"""Clients in rooms of a server: opened, closed, and waited for."""

import contextlib
import os
import signal
import time

from grace import Room
from lib.checks import check
from lib.serving import Server

# The limit of each wait, in seconds, long enough for a busy machine.
PATIENCE = 60
RETRIES = 0.01, 0.02, 0.05


def wait_until(what, is_true):
    """Waits until the condition holds."""
    bound = time.monotonic() + PATIENCE
    while not is_true():
        if time.monotonic() > bound:
            raise AssertionError(f"not in {PATIENCE} seconds: {what}")
        time.sleep(0.005)


class EventLog:
    """The events of a room, each as its name and its news."""

    def __init__(self, *events):
        self.news = []
        self.listeners = {event: self.listener(event) for event in events}

    def listener(self, event):
        """Returns a listener that records an event."""
        return lambda news: self.news.append((event, news))

    def of(self, event):
        """Returns the news of an event."""
        return [news for name, news in self.news if name == event]


@contextlib.contextmanager
def open_rooms(*addresses, **options):
    """Opens clients of the room `r` in sequence, one for each address."""
    with contextlib.ExitStack() as stack:
        rooms = []
        for address in addresses:
            rooms.append(stack.enter_context(Room(address, "r", retry_seconds=RETRIES, **options)))
            check.assertTrue(rooms[-1].entered(PATIENCE), "whether a client is in the room")
        yield rooms


@contextlib.contextmanager
def server_with_rooms(count, **options):
    """Yields a server and this many clients of its room."""
    with Server(1000, 64) as server, open_rooms(*[server.name] * count, **options) as rooms:
        yield server, *rooms


def versions_of(room, name):
    """Returns the versions of an object: each identifier with the attributes, or "gone"."""
    return [(version.id, "gone" if version.is_gone else version.attributes) for version in room.versions(name)]


def agree(*rooms):
    """Waits until all clients have all changes of the others."""
    for room in rooms:
        check.assertTrue(room.settled(PATIENCE), "whether all changes are answered")
    for room in rooms:
        check.assertTrue(room.refresh(PATIENCE), "whether all news came")


def stop(server):
    """Stops the program, and waits until all its threads have stopped."""
    server.process.send_signal(signal.SIGSTOP)
    os.waitid(os.P_PID, server.process.pid, os.WSTOPPED)


def expect_error(what, kind, call, *arguments):
    """Expects that the call fails with an error of this kind. Returns the error."""
    with check.assertRaises(kind, msg=what) as caught:
        call(*arguments)
    return caught.exception
