#!/usr/bin/env python3
"""Measures what idle connections cost the server, and prints a Markdown table: the memory of a connection that has
shaken hands, the same after each has sent a message of 64 KB, and the processor time of all. The clients are sockets of
this process, and say nothing. The first connections are not counted, since the process grows by more than they need.
The last column is the memory of a client that asks for pages of 64 entries and never reads. It measures the program
that `./test` proved."""

import contextlib
import resource
import time

from server import Server, program_of, row, titles, words_of

from lib.websocket_client import TEXT, Connection, frame

FIRST = 1000
STILL_SECONDS = 10
# The clients that never read, and how long they ask.
FLOODS = 100
FLOOD_SECONDS = 5
LONG = b'["show",[1,1]' + b" " * 65_000 + b"]"


def grown(server, before, count):
    """Returns the bytes by which the server's memory has grown, for each of so many connections."""
    return (server.memory()[0] - before) * 1024 // count


def connect(server, count):
    """Connects so many clients with their handshakes."""
    clients = []
    for _ in range(count):
        client = Connection(server.address)
        client.open()
        clients.append(client)
    return clients


def bytes_of_floods():
    """Returns the bytes that a client takes which asks for pages and never reads."""
    with Server(0, ["room"]) as server:
        first = Connection(server.address)
        first.open()
        first.send(frame(TEXT, b'["join","room"]'))
        first.read_frame()
        for seq in range(1, 64):
            seen = f"[[1,{seq - 1}]]" if seq > 1 else "[]"
            first.send(frame(TEXT, f'["new",{seq},{seen},"rect",[["text","{"x" * 256}"]]]'.encode()))
            first.read_frame()
        clients = connect(server, FLOODS)
        before = server.memory()[0]
        for client in clients:
            client.send(frame(TEXT, b'["join","room"]'))
            client.socket.setblocking(False)
        ask = frame(TEXT, b'["pull",0]') * 100
        end = time.monotonic() + FLOOD_SECONDS
        while time.monotonic() < end:
            for client in clients:
                with contextlib.suppress(BlockingIOError):
                    client.socket.send(ask)
        return grown(server, before, FLOODS)


def main():
    parser = words_of(__doc__, 1)
    parser.add_argument("--clients", type=int, default=9000)
    options = parser.parse_args()
    program_of(options)
    most = resource.getrlimit(resource.RLIMIT_NOFILE)[1]
    resource.setrlimit(resource.RLIMIT_NOFILE, (most, most))
    titles(["Connections", "Bytes each", "After a message of 64 KB", "Processor of all, % of a core", "Never reads, bytes"])
    for _ in range(options.runs):
        with Server(0, ["room"]) as server:
            first = connect(server, FIRST)
            for client in first:
                client.send(frame(TEXT, LONG))
                client.read_frame()
            before = server.memory()[0]
            clients = connect(server, options.clients)
            time.sleep(1)
            idle = grown(server, before, options.clients)
            for client in clients:
                client.send(frame(TEXT, LONG))
                client.read_frame()
            time.sleep(1)
            after = grown(server, before, options.clients)
            start = server.processor()
            time.sleep(STILL_SECONDS)
            share = (server.processor() - start) / STILL_SECONDS * 100
            for client in first + clients:
                client.socket.close()
        row([options.clients, idle, after, f"{share:.2f}", f"{bytes_of_floods():,}"])


if __name__ == "__main__":
    main()
