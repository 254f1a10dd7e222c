#!/usr/bin/env python3
"""Measures what a room whose syncs take two seconds does to the other rooms of `grace serve --keep`, and prints a
Markdown table. Clients put values in rooms of their own, first while nobody is in the slow room, then while a client
puts there without a pause. It measures the program that `./test` proved."""

import pathlib
import shutil
import tempfile
import threading

from serve import client_program, figures, load_rooms
from server import ROOT, Server, program_of, row, titles, words_of

from lib.keeping import FileLibrary
from lib.websocket_client import Ended

SLOW_MILLIS = 2000


def put_slowly(client):
    """Puts values in the slow room until the connection ends."""
    try:
        client.ask('["join","slow"]')
        client.ask('["new",1,[],"rect",[]]')
        seq = 1
        while True:
            seq += 1
            client.ask(f'["put",{seq},[[1,{seq - 1}]],[1,1],[],[["x",{seq}]]]')
    except (Ended, OSError):
        pass


def measure(load, options, folder, library, is_slow):
    """Runs the clients once with a fresh server."""
    shutil.rmtree(folder, ignore_errors=True)
    folder.mkdir(parents=True)
    rooms = [f"room-{number}" for number in range(options.clients)]
    server = Server(options.clients + 1, [*rooms, "slow"], keep=folder)
    server.variables = library.variables(SLOW="/slow.record", SLOW_MILLIS=SLOW_MILLIS)
    with server:
        client = server.client()
        client.socket.settimeout(3 * SLOW_MILLIS / 1000)
        thread = threading.Thread(target=put_slowly, args=(client,), daemon=True)
        if is_slow:
            thread.start()
        return load_rooms(load, server, options.clients, options.puts, 1, rooms)


def main():
    parser = words_of(__doc__, 5)
    parser.add_argument("--clients", type=int, default=16)
    parser.add_argument("--puts", type=int, default=2000, help="puts of a client")
    parser.add_argument("--folder", type=pathlib.Path, default=ROOT / "bench/out",
                        help="a folder on the disk to measure")
    options = parser.parse_args()
    program_of(options)
    options.folder.mkdir(parents=True, exist_ok=True)
    library = FileLibrary()
    titles(["Slow room", "Clients", "Puts a second", "Median, microseconds", "99th percentile", "Processor, microseconds a put"])
    with client_program() as load, tempfile.TemporaryDirectory(dir=options.folder) as kept:
        for is_slow in (False, True):
            runs = [measure(load, options, pathlib.Path(kept) / "rooms", library, is_slow) for _ in range(options.runs)]
            row(["a client puts" if is_slow else "nobody", options.clients, *figures(runs, options.puts * options.clients)])


if __name__ == "__main__":
    main()
