"""What tests of kept rooms on demand do, and look at."""

import contextlib
import fcntl
import time

from lib.keeping import path_of
from lib.observing import samples, wait_until
from lib.records import compact

NOT_SERVED = '["no",0,21,"not-served"]'
GOES_AWAY = "INFO", "the input ended; the server goes away"
LINES = ['["join",1]', '["new",[1,1],[],"rect",[["x",0]]]', '["join",2]']
RECORD = "".join(f"{line}\n" for line in LINES).encode()
# A file that is bad at its fourth line.
BAD_LINE = RECORD + b'["join",1]\n["join",3]\n'
# How long a room may stay open that is to be closed after a second, and how long one that could not be opened is not
# tried again: the seconds that this takes at most, with what a loaded machine adds.
SOON = 10


def new(seq, site=1):
    """Returns the creation of an object by a site that is alone."""
    return compact(["new", seq, [[site, seq - 1]] if seq > 1 else [], "rect", [["x", seq]]])


def draw_once(client, room):
    """Joins an empty room, creates an object there and leaves."""
    client.expect_reply(["join", room], '["joined",0,1]')
    client.expect_reply(new(1), '["made",1,[1,1]]')
    client.expect_reply(["leave"], '["left",2]')


def ask_until_served(client, request, seconds=SOON):
    """Sends a request again while it is refused by 21, at most so many seconds. Returns the reply."""
    bound = time.monotonic() + seconds
    while (reply := client.ask(request)) == NOT_SERVED:
        if time.monotonic() > bound:
            raise AssertionError(f"{request} is refused for {seconds} seconds")
        time.sleep(0.05)
    return reply


def rooms_of(server):
    """Returns the samples about rooms, without the beginning of their names."""
    return {
        name.removeprefix("grace_rooms_"): number
        for name, number in samples(server).items() if name.startswith("grace_rooms_")
    }


def refusals_of(server):
    """Returns how many joins and backs were not served, by reason. Leaves out reasons that did not occur."""
    found = {name: number for name, number in rooms_of(server).items() if name.startswith("not_served_total")}
    return {name.split('"')[1]: number for name, number in found.items() if number}


@contextlib.contextmanager
def locked(folder, room):
    """Holds the lock of a room's file, as another process does that serves the room. Creates the file if there is
    none."""
    with open(path_of(folder, room), "ab") as file:
        fcntl.flock(file, fcntl.LOCK_EX | fcntl.LOCK_NB)
        yield


def is_locked(folder, room):
    """Returns whether another process has the lock of a room's file."""
    try:
        with locked(folder, room):
            return False
    except BlockingIOError:
        return True


def wait_until_closed(server, room):
    """Waits until the program has closed a room's file."""
    wait_until(f"{room} is closed", lambda: f"{room}.record" not in server.open_files())


def notices_of(server):
    """Returns the lines on standard error of a server that has ended, but for that of its end."""
    return [notice for notice in server.other_notices if notice != GOES_AWAY]
