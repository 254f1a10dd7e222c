"""Several processes that serve one folder with rooms on demand, while many people draw and each process is killed."""

import itertools
import random
import signal
import time
import unittest
import zlib
from functools import partial

from lib.checks import check
from lib.crowd import FORK, Crowd, Shares
from lib.keeping import KeepingServer, expect_kept, room_folder
from lib.on_demand import NOT_SERVED
from lib.running import OPTIONS
from lib.serving import Client
from lib.websocket_client import SECONDS, Ended, Fault

from keep.test_kills import Person
PROCESSES, PEOPLE, ROOMS, MOST = 3, 100, 20, 200
# The time between two kills, the pause of a person after an operation and between attempts to connect, in seconds.
BETWEEN, PAUSE, AGAIN = 1.5, 0.2, 0.05


def patience():
    """Returns the seconds in which a guest has to get in and out. It allows for a machine that is busy with all of
    them."""
    return OPTIONS.crowd * 3 * SECONDS


class Processes:
    """Processes that serve one folder. Each is started again at its address when it was killed."""

    def __init__(self, folder):
        self.folder = folder
        self.ended = []
        self.running = [self.start(0) for _ in range(PROCESSES)]

    def start(self, port):
        """Starts a process at this port, or a free one."""
        server = KeepingServer(self.folder, (), sessions=0, workers=2, on_demand=MOST, close_after=1, by_path=True)
        server.port = port
        server.__enter__()
        return server

    def replace(self, number):
        """Kills a process and starts it again."""
        was = self.running[number]
        was.kill(signal.SIGKILL)
        self.ended.append(was)
        self.running[number] = self.start(was.address[1])

    def addresses(self):
        """Returns the addresses of the processes."""
        return [server.address for server in self.running]

    def end(self):
        """Ends all processes."""
        for server in self.running:
            server.kill(signal.SIGKILL)
        for server in [*self.ended, *self.running]:
            server.__exit__()


class Guest(Person):
    """A person who draws in a room until the end, and comes back whenever the connection is lost. `clients` has the
    connections over which the person was let in."""

    def __init__(self, number, room):
        super().__init__(number, room)
        self.clients = []

    def let_in(self, address):
        """Connects over the path of the room. Returns whether the process is there and does not answer 503."""
        client = None
        try:
            client = Client(address, 0)
            client.open(f"/{self.room}")
        except (ConnectionError, Ended, Fault) as fault:
            if isinstance(fault, Fault) and "503" not in str(fault):
                raise
            if client:
                client.hang_up()
            return False
        client.open = lambda: None
        self.clients.append(client)
        return True

    def come_in(self, addresses):
        """Connects as a proxy does that hashes paths: to the first process in the order of the room that serves it.
        Then enters. Returns the client."""
        bound = time.monotonic() + patience()
        first = zlib.crc32(self.room.encode())
        for attempt in itertools.count(first):
            if self.let_in(addresses[attempt % len(addresses)]):
                break
            if time.monotonic() > bound:
                raise AssertionError(f"no process serves room {self.room}")
            time.sleep(AGAIN)
        self.enter(self.clients[-1])
        return self.clients[-1]

    def ask(self, client, request):
        """As of any person. Where the room was closed before the join came, another process may serve it by now; then
        the person connects again."""
        text = super().ask(client, request)
        if text == NOT_SERVED:
            raise Ended
        return text

    def visit(self, addresses, work):
        """Enters and does this work with the client. Returns whether the connection lasted."""
        try:
            work(self.come_in(addresses))
            return True
        except Ended:
            self.clients[-1].hang_up()
            return False

    def draw_until(self, over, client):
        """Draws until that is over, and hangs up."""
        while not over.is_set():
            self.drawer.submit(self.drawer.next_operation(8))
            time.sleep(self.drawer.source.uniform(0, OPTIONS.crowd * PAUSE))
        client.hang_up()

    def read_and_leave(self, client):
        """Reads the whole record, and leaves."""
        self.drawer.catch_up()
        client.ask(["leave"])
        client.close()

    def stay(self, addresses, over):
        """Draws until that is over. Then reads the whole record, and leaves."""
        while not over.is_set():
            self.visit(addresses, partial(self.draw_until, over))
        bound = time.monotonic() + patience()
        while not self.visit(addresses, self.read_and_leave):
            if time.monotonic() > bound:
                raise AssertionError(f"nobody can leave room {self.room}")


class Guests:
    """The guests of one process of clients. They draw until `over` is set."""

    def __init__(self, guests, over):
        self.guests, self.over = guests, over

    def stay(self, addresses):
        """All draw at once. Returns the room and the transcripts of each."""
        crowd = Crowd()
        for guest in self.guests:
            crowd.start(guest.stay, addresses, self.over)
        crowd.end(patience())
        check.assertEqual(
            [guest for guest in self.guests if guest.drawer.site is None], [], "the guests without a site",
        )
        return [(guest.room, [client.transcript for client in guest.clients]) for guest in self.guests]


class TestProcesses(unittest.TestCase):
    time_limit = 900

    def test_processes_that_are_killed(self):
        """People draw in rooms on demand that three processes serve. Each process is killed once and started again.
        Each person comes back as the same site, and nothing is lost that a reply told. `--crowd` times as many people
        draw in as many times the rooms, from as many processes."""
        rooms = [f"room-{number}" for number in range(OPTIONS.crowd * ROOMS)]
        guests = [Guest(number, rooms[number % len(rooms)]) for number in range(OPTIONS.crowd * PEOPLE)]
        over = FORK.Event()
        shares = Shares([Guests(guests[at : at + PEOPLE], over) for at in range(0, len(guests), PEOPLE)])
        with room_folder() as folder, shares:
            processes = Processes(folder)
            shares.begin(Guests.stay, processes.addresses())
            for number in random.sample(range(PROCESSES), PROCESSES):
                time.sleep(BETWEEN * OPTIONS.crowd)
                processes.replace(number)
            time.sleep(BETWEEN * OPTIONS.crowd)
            over.set()
            transcripts = {room: [] for room in rooms}
            for room, of_guest in itertools.chain(*shares.results(patience())):
                transcripts[room] += of_guest
            processes.end()
            for room in rooms:
                expect_kept(folder, [room], transcripts[room])
