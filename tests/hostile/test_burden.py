"""Clients that ask for the longest answers and read next to nothing, until all lines of the server hold as much as they
may: above 256 MiB lines that stall end after a second, and above 512 MiB nothing more is read."""

import contextlib
import os
import socket
import time
import unittest

from lib.crowd import Shares
from lib.keeping import KeepingServer, room_folder
from lib.limit_records import longest_answer
from lib.observing import samples
from lib.own_network import enter_own_network
from lib.records import compact

# What all lines may hold before those that stall end, and before nothing more is read, in KiB.
CROWDED, FULL = 262_144, 524_288
# The clients. Their answers would take 860 million bytes. A room has at most 256 sites, of which 32 made the object.
CLIENTS = 220
# So many ask at a time where lines are to stall before the second limit.
FEW = 4
# A client reads this many bytes each time that so many seconds are over: before the 30 seconds after which any line
# that stalls ends, and after the second of a crowded server.
SIP, PAUSE, STALLED = 65_536, 5, 30
# What the system takes of an answer from the server. The lines hold the rest.
SEND_BUFFER = 65_536
# The most memory: a quarter more than the second limit, for the program, the answers in the making, and copies of them
# while they move.
THREADS = 4
MOST = FULL + FULL // 4
# Half more, where all answers are made at the same moment: the allocator of each thread keeps what it freed meanwhile. A
# server that counts answers only after all are made has 800,000 KiB and more.
MOST_AT_ONCE = FULL + FULL // 2
# The seconds in which the server has to be crowded, and then to have ended lines. A loaded machine needs most of them
# to make the answers.
PATIENCE = 240
ENDED = 'grace_sessions_ended_total{cause="stream fault"}'


def sip(clients, flags=0):
    """Each client reads a little, unless the server has ended its line. With MSG_DONTWAIT none waits for it."""
    for client in clients:
        with contextlib.suppress(BlockingIOError, ConnectionError):
            client.socket.recv(SIP, flags)


def ended_of(server):
    """Returns how many lines the server has ended. While it reads nothing it does not say, and they count as 0."""
    try:
        return samples(server)[ENDED]
    except TimeoutError:
        return 0


def ask_in_turn(server, clients, honest, at_once):
    """So many clients ask for the longest answer at once. When its beginning has come, the next ones ask. Returns the
    largest memory of the server meanwhile, in KiB, whether it was crowded before any line had ended, and after how many
    seconds one had."""
    began = sipped = time.monotonic()
    was_crowded, ended_after = False, None
    for at in range(0, len(clients), at_once):
        for client in clients[at : at + at_once]:
            client.send_request(["show", [1, 1]])
        sip(clients[at : at + at_once])
        if time.monotonic() - sipped > PAUSE:
            sip(clients[:at], socket.MSG_DONTWAIT)
            sipped = time.monotonic()
        honest.expect_reply(["pull", 1], '["entries",1,1,[]]')
        if ended_after is None and ended_of(server):
            ended_after = time.monotonic() - began
        was_crowded = was_crowded or ended_after is None and server.memory()[0] > CROWDED
    return server.memory()[1], was_crowded, ended_after


def wait_until_ended(server, clients):
    """Waits until the server has ended lines, while the clients read a little. Returns how many."""
    bound = time.monotonic() + PATIENCE
    while not ended_of(server):
        if time.monotonic() > bound:
            raise AssertionError("no line has ended")
        time.sleep(PAUSE)
        sip(clients, socket.MSG_DONTWAIT)
    return ended_of(server)


def run_crowd(record, at_once):
    """Runs the server and all clients in a network of their own. Returns what `ask_in_turn` returns, and how many lines
    the server ended."""
    enter_own_network(SEND_BUFFER)
    with room_folder({"heavy": record}) as folder, KeepingServer(folder, ["heavy", "light"], 0, THREADS) as server:
        honest, *clients = [server.client(receive_buffer=SIP) for _ in range(1 + CLIENTS)]
        for client in (honest, *clients):
            client.socket.settimeout(PATIENCE)
            client.reply_to(["join", "light" if client is honest else "heavy"])
        return *ask_in_turn(server, clients, honest, at_once), wait_until_ended(server, clients)


@unittest.skipIf(os.geteuid(), "only root can run this test")
class TestBurden(unittest.TestCase):
    time_limit = 600

    def crowd(self, at_once, bound):
        """Runs the crowd, and checks the most memory of the server against a bound in KiB. Returns whether the server was
        crowded before any line had ended, and after how many seconds one had."""
        record = "".join(f"{compact(entry)}\n" for entry in longest_answer().entries).encode()
        with Shares([record]) as shares:
            shares.begin(run_crowd, at_once)
            ((most, was_crowded, ended_after, ended),) = shares.results(self.time_limit)
        print(f"{ended} of {CLIENTS} lines ended; at most {most:,} KiB", flush=True)
        self.assertLessEqual(most, bound, "the memory of the server in KiB")
        return was_crowded, ended_after

    def test_crowded(self):
        """Lines that stall end, an honest client is served, and the memory stays below the second limit."""
        was_crowded, ended_after = self.crowd(FEW, MOST)
        if not was_crowded and ended_after and ended_after > STALLED:
            self.skipTest("the machine is slow: lines that stalled for 30 seconds ended before the server was crowded")
        self.assertTrue(was_crowded, "whether it was crowded")

    def test_all_at_once(self):
        """All ask at the same moment. The server counts the answer to one before it reads the next."""
        self.crowd(CLIENTS, MOST_AT_ONCE)
