#!/usr/bin/env python3
"""How long a client takes to load a nearly full record over a line with a round trip of 100 ms: prints the seconds of
three loads. The relay delays each message by half a round trip, and does not limit the bytes."""

import pathlib
import sys
import time

sys.dont_write_bytecode = True
HERE = pathlib.Path(__file__).resolve().parent
sys.path[:0] = map(str, (HERE, HERE.parent, HERE.parent.parent.parent / "tests"))

from relay import Relay
from rooms import open_rooms
from lib.serving import Server, program

OPERATIONS = 16199
OBJECTS = 8000
# So many requests are sent before their replies are read.
IN_FLIGHT = 100
ROUND_TRIP_SECONDS = 0.1
TIMES = 3


def request_of(number):
    """The request of the operation with this number: it creates an object, or puts to one of them in turn."""
    seen = [[1, number - 1]] if number > 1 else []
    if number <= OBJECTS:
        return ["new", number, seen, "rect", [["x", number], ["y", 7]]]
    return ["put", number, seen, [1, (number - 1) % OBJECTS + 1], [], [["x", number]]]


def fill(server):
    """Joins the empty room as its first site, and makes the operations."""
    client = server.client()
    client.ask(["join", "r"])
    for first in range(1, OPERATIONS + 1, IN_FLIGHT):
        numbers = range(first, min(first + IN_FLIGHT, OPERATIONS + 1))
        for number in numbers:
            client.send_request(request_of(number))
        for number in numbers:
            client.read_reply()
    client.hang_up()


def main():
    program()
    with Server(10, 4) as server, Relay(server.address[1]) as relay:
        fill(server)
        relay.round_trip_seconds = ROUND_TRIP_SECONDS
        for _ in range(TIMES):
            start = time.monotonic()
            with open_rooms(relay.name) as (room,):
                print(f"{len(room.record)} entries in {time.monotonic() - start:.2f} s")


if __name__ == "__main__":
    main()
