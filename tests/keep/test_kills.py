"""Servers that end while many clients draw, and start again over the same folder."""

import itertools
import json
import os
import random
import signal
import time
import unittest
from functools import partial

from lib.answers import BY_SESSION
from lib.drawing import Drawer, come_back
from lib.keeping import KeepingServer, bytes_of, room_folder, expect_kept, whole_lines
from lib.records import compare_record
from lib.crowd import Crowd, Shares
from lib.running import OPTIONS
from lib.serving import Client
from lib.websocket_client import SECONDS, Ended
ROOMS = ["a", "b", "c", "d"]
CLIENTS = 32
WORKERS = 4
# The longest run of a server before its end where each process of clients has a processor, and the longest pause of a
# client after an operation, in seconds.
RUN, PAUSE = 2.0, 0.03
# The seconds in which all clients have to see the end of a server, or to leave.
PATIENCE = 6 * SECONDS


class Person:
    """A person who draws in a room as one site, over one connection after another."""

    def __init__(self, number, room):
        self.room = room
        self.client = None
        self.drawer = Drawer(None, number)
        # The room has at least this many entries, by all replies; and the number of the site's operations.
        self.least = 0
        self.made = 0

    def ask(self, client, request):
        """Sends a request and returns the text of the reply. Checks that it is not older than the replies before."""
        text = client.ask(request)
        reply = json.loads(text)
        if reply[0] == "no" and reply[3] in BY_SESSION:
            return text
        if reply[1] < self.least:
            raise AssertionError(f"after {self.least} entries in room {self.room} came {text:.200}")
        self.least = reply[1] + (reply[0] in ("joined", "made", "taken"))
        self.made += reply[0] in ("made", "taken")
        return text

    def enter(self, client):
        """Opens the connection, and joins or comes back."""
        self.drawer.ask = partial(self.ask, client)
        client.open()
        if self.drawer.site is None:
            self.drawer.join(self.room)
            return
        made = come_back(self.drawer.reply_to, self.room, self.drawer.site, 3 * SECONDS)
        if made not in (self.made, self.made + 1):
            raise AssertionError(f"site {self.drawer.site} made {self.made} operations, but comes back with {made}")
        self.made = made

    def connect(self, address):
        """Connects to the server. Returns the client."""
        self.client = Client(address, 0)
        return self.client

    def draw(self, address):
        """Draws until the server is gone."""
        self.client = None
        try:
            self.enter(self.connect(address))
            while True:
                self.drawer.submit(self.drawer.next_operation(8))
                time.sleep(self.drawer.source.uniform(0, PAUSE))
        except (Ended, ConnectionError):
            pass
        if self.client:
            self.client.hang_up()

    def finish(self, address):
        """Comes back a last time, reads the whole record, and leaves."""
        client = self.connect(address)
        self.enter(client)
        self.drawer.catch_up()
        self.drawer.submit(self.drawer.next_operation())
        client.ask(["leave"])
        client.close()


class Share:
    """The people of one process."""

    def __init__(self, people):
        self.people = people

    def together(self, work, address):
        """All do this work at once. Returns their transcripts, and the entries that each room has at least."""
        crowd = Crowd()
        for person in self.people:
            crowd.start(work, person, address)
        crowd.end(PATIENCE)
        least = dict.fromkeys(ROOMS, 0)
        for person in self.people:
            least[person.room] = max(least[person.room], person.least)
        return [person.client.transcript for person in self.people if person.client], least

    def share_progress(self, least):
        """Raises each person's lower bound to that of the room: later replies must cover all earlier ones."""
        for person in self.people:
            person.least = least[person.room]


def take_results(shares, server):
    """Waits until all people are done. Returns the transcripts of the server's sessions and of those before."""
    results = shares.results(PATIENCE)
    for transcript in itertools.chain(*(transcripts for transcripts, _ in results)):
        server.other_client().transcript = transcript
    shares.call(Share.share_progress, {room: max(least[room] for _, least in results) for room in ROOMS})
    return server.transcripts()


def end_under_load(shares, count, folder, transcripts, by):
    """Runs a server while all draw, and ends it at a random moment. Its files must match the transcripts, which are
    returned."""
    with KeepingServer(folder, ROOMS, 2 * count, WORKERS, before=transcripts) as server:
        shares.begin(Share.together, Person.draw, server.address)
        time.sleep(random.uniform(0, RUN * max(1, len(shares.processes) / os.cpu_count())))
        server.kill(by)
        transcripts = take_results(shares, server)
    for room in ROOMS:
        compare_record(room, whole_lines(folder, room), transcripts)
    return transcripts


class TestKills(unittest.TestCase):
    time_limit = 600

    def finish_all(self, shares, count, folder, transcripts):
        """Runs a server to its end, while all come back and leave. The files equal its output and match the
        transcripts."""
        with KeepingServer(folder, ROOMS, count, WORKERS, before=transcripts, patience=PATIENCE) as server:
            shares.begin(Share.together, Person.finish, server.address)
            transcripts = take_results(shares, server)
            records = server.finish()
        expect_kept(folder, ROOMS, transcripts)
        for room in ROOMS:
            self.assertEqual(
                bytes_of(folder, room).decode(), "".join(f"{line}\n" for line in records[room]), "the file",
            )

    def end_repeatedly(self, times, by):
        """32 clients, or `--crowd` times as many in as many processes, draw in four rooms. The server is ended this
        many times and started again. No confirmed entry is lost, and at the end the files equal the server's output."""
        count, transcripts = OPTIONS.crowd * CLIENTS, []
        people = [Person(number, ROOMS[number % len(ROOMS)]) for number in range(count)]
        shares = Shares([Share(people[at : at + CLIENTS]) for at in range(0, count, CLIENTS)])
        with room_folder() as folder, shares:
            for _ in range(times):
                transcripts = end_under_load(shares, count, folder, transcripts, by)
            self.finish_all(shares, count, folder, transcripts)

    def test_killed(self):
        """SIGKILL ends the server, as often as `--times` says."""
        self.end_repeatedly(OPTIONS.times, signal.SIGKILL)

    def test_ended_by(self):
        """A signal that requests termination ends the server."""
        for name, signal_ in [("SIGTERM", signal.SIGTERM), ("SIGINT", signal.SIGINT)]:
            with self.subTest(name):
                self.end_repeatedly(1, signal_)

    def test_at_the_same_address(self):
        """A server that was killed with connected clients restarts at once at its address."""
        with room_folder() as folder:
            port, transcripts = 0, []
            for entries in range(1, 6):
                server = KeepingServer(folder, before=transcripts)
                server.port = port
                with server:
                    port = server.address[1]
                    back = ('["back","r",1]', f'["back",{entries},1,0]')
                    server.client().expect_reply(*(back if entries > 1 else ('["join","r"]', '["joined",0,1]')))
                    server.client().expect_reply('["join","r"]', f'["joined",{entries},{entries + 1}]')
                    server.kill()
                    transcripts = server.transcripts()
            expect_kept(folder, ["r"], transcripts)
