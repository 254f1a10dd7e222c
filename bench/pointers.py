#!/usr/bin/env python3
"""Measures what people cost who move their pointers, and prints a Markdown table. Clients in one room each set a note
ten times a second, and read the notes when the server answers their wait. The times are from the sending of a note to
its arrival at another client. The clients are one thread of this process, which shares the cores with the server. It
measures the program that `./test` proved."""

import json
import selectors
import statistics
import time

from server import Server, program_of, row, titles, words_of

from lib.websocket_client import TEXT, Connection, frame

PERIOD = 0.1
MOVING_SECONDS = 10


def take_messages(received):
    """Removes the whole frames of the server from the front of these bytes. Returns their payloads."""
    payloads = []
    while len(received) >= 2:
        start, length = 2, received[1]
        if length > 125:
            start = 4 if length == 126 else 10
            length = int.from_bytes(received[2:start], "big")
        if len(received) < start + length:
            break
        payloads.append(bytes(received[start : start + length]))
        del received[: start + length]
    return payloads


class Person:
    """A client that moves a pointer, as the libraries do: it holds a wait, and asks for notes after an empty page."""

    def __init__(self, address, site, start):
        self.connection = Connection(address)
        self.connection.open()
        self.ask('["join","room"]')
        self.connection.read_frame()
        self.site, self.due = site, start + PERIOD * site / 100
        self.received = bytearray()
        self.connection.socket.setblocking(False)
        self.waiting, self.seen, self.delays = 0, {}, []
        self.ask('["notes"]')

    def ask(self, request):
        """Sends a request."""
        self.connection.socket.sendall(frame(TEXT, request.encode()))

    def move(self, now):
        """Sets the note, if it is time."""
        if now >= self.due:
            self.due += PERIOD
            self.ask(f'["note","{time.monotonic_ns()}"]')

    def hear(self):
        """Reads the replies that came."""
        self.received += self.connection.socket.recv(65536)
        for reply in map(json.loads, take_messages(self.received)):
            if reply[0] == "entries":
                self.waiting -= 1
                self.ask('["notes"]')
            else:
                self.look(reply[2])
                if not self.waiting:
                    self.waiting += 1
                    self.ask(f'["wait",{reply[1]}]')

    def look(self, notes):
        """Notes how old the changed notes of others are."""
        now = time.monotonic_ns()
        for site, text in notes:
            if site != self.site and self.seen.get(site) != text:
                self.delays.append((now - int(text)) / 1e6)
            self.seen[site] = text


def measure(count):
    """Lets so many people move in one room. Returns the delays in milliseconds and the server's processor seconds."""
    with Server(count, ["room"]) as server:
        start = time.monotonic() + 1
        people = [Person(server.address, site, start) for site in range(1, count + 1)]
        sockets = selectors.DefaultSelector()
        for person in people:
            sockets.register(person.connection.socket, selectors.EVENT_READ, person)
        while time.monotonic() < start:
            for key, _ in sockets.select(0.01):
                key.data.hear()
        before = server.processor()
        while (now := time.monotonic()) < start + MOVING_SECONDS:
            for person in people:
                person.move(now)
            for key, _ in sockets.select(0.001):
                key.data.hear()
        return [delay for person in people for delay in person.delays], server.processor() - before


def main():
    parser = words_of(__doc__, 3)
    parser.add_argument("--people", type=int, nargs="+", default=[3, 30])
    options = parser.parse_args()
    program_of(options)
    titles(["People", "Notes heard a second", "Median, milliseconds", "99th percentile", "Processor, % of a core"])
    for count in options.people:
        runs = [measure(count) for _ in range(options.runs)]
        delays = [delay for run in runs for delay in run[0]]
        heard = len(delays) / len(runs) / MOVING_SECONDS
        processor = statistics.median(run[1] for run in runs) / MOVING_SECONDS * 100
        slow = statistics.quantiles(delays, n=100)[98]
        row([count, f"{heard:,.0f}", f"{statistics.median(delays):.1f}", f"{slow:.1f}", f"{processor:.1f}"])


if __name__ == "__main__":
    main()
