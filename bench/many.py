#!/usr/bin/env python3
"""Measures `grace serve` with thousands of clients, and prints a Markdown table. The clients are sockets of this one
process, 25 in each room. First they are idle, each with its wait held: the processor time of all, and the time of a
probe, also while a thousand other connections have sent half a head. Then they draw for the given time: each puts a
value about every 20 seconds, and holds a wait in between. The time is from the sending of a put to its reply; the
clients' own process is part of it. At the end `grace check` compares each room's record with the replies to one of its
clients. It measures the program that `./test` proved."""

import collections
import http.client
import itertools
import json
import random
import resource
import selectors
import socket
import statistics
import sys
import time

from server import Server, program_of, row, titles, words_of

from lib.serving import verdict
from lib.websocket_client import TEXT, Connection, frame, head, new_key, take_frame

IN_A_ROOM = 25
HALF_HEADS = 1000
STILL_SECONDS = 10
PAUSE = 20
PROBES = 20
# A client sends no put above this number of entries.
FULL = 16_000
# The mask of each frame.
ZEROS = bytes(4)


class Client:
    """A client in a room, without a thread. `due` is the time of its next put."""

    def __init__(self, address, room, is_noted):
        self.connection = Connection(address)
        self.connection.open()
        self.socket = self.connection.socket
        self.socket.setblocking(False)
        self.room = room
        self.seq = self.site = self.length = 0
        self.sent = collections.deque()
        self.received = bytearray()
        self.lines = [] if is_noted else None
        self.due = None

    def ask(self, text):
        """Sends a request."""
        self.sent.append((text, time.monotonic()))
        self.socket.sendall(frame(TEXT, text.encode(), key=ZEROS))

    def put(self):
        """Puts a value to its object."""
        self.seq += 1
        self.ask(f'["put",{self.seq},[[{self.site},{self.seq - 1}]],[{self.site},1],[],[["x",{self.seq}]]]')

    def replies(self):
        """Yields the replies that have come, each with its request and the time that it took."""
        self.received += self.socket.recv(1 << 18) or sys.exit("bench: the server ended a connection")
        while (found := take_frame(self.received)) is not None:
            request, start = self.sent.popleft()
            yield request, found.payload.decode(), time.monotonic() - start

    def take(self, request, reply):
        """Takes a reply. The client then waits for the next entry."""
        value = json.loads(reply)
        if self.lines is not None:
            self.lines.append(f"[{self.site or value[2]},{request},{reply}]")
        word = value[0]
        if word == "joined":
            self.site, self.seq = value[2], 1
            self.ask('["new",1,[],"rect",[["x",0]]]')
        elif word == "entries":
            self.length = value[2] + len(value[3])
        elif word not in ("made", "taken"):
            sys.exit(f"bench: {request} was answered by {reply}")
        if not self.sent:
            self.ask(f'["wait",{self.length}]')


class Crowd:
    """All clients, and the times of their puts."""

    def __init__(self, server, count):
        self.selector = selectors.DefaultSelector()
        self.clients = []
        self.times = []
        self.count_replies = 0
        for number in range(count):
            client = Client(server.address, server.rooms[number // IN_A_ROOM], number % IN_A_ROOM == 0)
            self.selector.register(client.socket, selectors.EVENT_READ, client)
            self.clients.append(client)
            client.ask(json.dumps(["join", client.room]))
            self.serve(0)

    def serve(self, seconds):
        """Takes what comes in this time, and at least what is there."""
        for key, _ in self.selector.select(seconds):
            client = key.data
            for request, reply, passed in client.replies():
                self.count_replies += 1
                if request.startswith('["put"'):
                    self.times.append(passed)
                client.take(request, reply)

    def rest(self, seconds):
        """Takes what comes until nothing has come for a second and this time is over."""
        end = time.monotonic() + seconds
        while time.monotonic() < end or self.selector.select(1):
            self.serve(0.1)

    def draw(self, seconds):
        """Draws for this time. The puts are spread over the clients."""
        start = time.monotonic()
        end, source = start + seconds, random.Random(1)
        turns = sorted((start + source.uniform(0, PAUSE), number) for number in range(len(self.clients)))
        queue = collections.deque(turns)
        while time.monotonic() < end:
            while queue and queue[0][0] <= time.monotonic():
                due, number = queue.popleft()
                client = self.clients[number]
                if client.length < FULL:
                    client.put()
                queue.append((due + PAUSE, number))
            self.serve(0.002)
        self.rest(1)


def probe_milliseconds(server):
    """Returns the longest time of some probes in milliseconds."""
    times = []
    for _ in range(PROBES):
        start = time.monotonic()
        connection = http.client.HTTPConnection(*server.address, timeout=60)
        connection.request("GET", "/health")
        if connection.getresponse().status != 200:
            sys.exit("bench: a probe failed")
        times.append(time.monotonic() - start)
    return max(times) * 1000


def half_heads(server):
    """Opens connections that send half a head."""
    data = head(new_key(), "/")
    opened = []
    for _ in range(HALF_HEADS):
        opened.append(socket.create_connection(server.address))
        opened[-1].sendall(data[: len(data) // 2])
    return opened


def use_up(server):
    """Connects and hangs up until the server has had all its sessions and ends."""
    while server.process.poll() is None:
        try:
            socket.create_connection(server.address, timeout=1).close()
        except OSError:
            time.sleep(0.1)


def check_rooms(server, crowd):
    """Ends the clients and the server. Checks each room's record, by the replies to its first client."""
    for client in crowd.clients:
        crowd.selector.unregister(client.socket)
        client.socket.close()
    use_up(server)
    lines = iter(list(iter(server.next_line, None)))
    first = crowd.clients[::IN_A_ROOM]
    for room, client in zip(server.rooms, first):
        _, name, count = next(lines).split()
        record = [line.rstrip("\n") for line in itertools.islice(lines, int(count))]
        if name != room or verdict(record, client.lines, 300) != (0, "holds\n"):
            sys.exit(f"bench: room {room} does not hold")
    return len(first)


def measure(count, seconds):
    """Prints the row of so many clients."""
    rooms = [f"room-{number}" for number in range(count // IN_A_ROOM)]
    with Server(count + 2 * HALF_HEADS, rooms) as server:
        crowd = Crowd(server, count)
        crowd.rest(2)
        start = server.processor()
        crowd.rest(STILL_SECONDS)
        idle = (server.processor() - start) / STILL_SECONDS * 100
        health = probe_milliseconds(server)
        opened = half_heads(server)
        crowded = probe_milliseconds(server)
        for half in opened:
            half.close()
        crowd.times, crowd.count_replies = [], 0
        start = server.processor()
        crowd.draw(seconds)
        share = (server.processor() - start) / seconds * 100
        waits = statistics.quantiles(crowd.times, n=100)
        memory = server.memory()[1] / 1024
        row([
            f"{count:,}", f"{idle:.2f}", f"{health:.1f}", f"{crowded:.1f}", f"{len(crowd.times) / seconds:,.0f}",
            f"{crowd.count_replies / seconds:,.0f}", f"{waits[49] * 1000:.1f}", f"{waits[98] * 1000:.1f}",
            f"{share:.0f}", f"{memory:.0f}", check_rooms(server, crowd),
        ])


def main():
    parser = words_of(__doc__, 1)
    parser.add_argument("--clients", type=int, nargs="+", default=[1000, 10000])
    parser.add_argument("--seconds", type=float, default=60, help="how long they draw")
    options = parser.parse_args()
    program_of(options)
    most = resource.getrlimit(resource.RLIMIT_NOFILE)[1]
    resource.setrlimit(resource.RLIMIT_NOFILE, (most, most))
    titles([
        "Clients", "Idle, % of a core", "A probe, ms", "With half heads", "Puts a second", "Replies a second",
        "Median, ms", "99%, ms", "Drawing, % of a core", "MiB at most", "Rooms that hold",
    ])
    for _ in range(options.runs):
        for count in options.clients:
            measure(count, options.seconds)


if __name__ == "__main__":
    main()
