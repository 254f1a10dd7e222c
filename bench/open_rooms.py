#!/usr/bin/env python3
"""Measures what an open room on demand takes, in memory and with `--keep`, and prints a Markdown table: the memory of
the process for each of the N of `--rooms N` before it is open, what an open room takes on top, and what is left of that
when the kept rooms are closed again. A room has its join, a creation and puts. Nobody is in it when it is measured. It
measures the program that `./test` proved."""

import contextlib
import pathlib
import sys
import tempfile
import time

from server import (
    ROOT, SECONDS, Server, allow_open_files, ask, builds_of, compare_words_of, connect, expect_reply, row, titles,
    use_build,
)

from lib.observing import samples

# An open room has its file and the lock of its chain open. The process and its client need some more descriptors.
FILES_A_ROOM, SPARE_FILES = 2, 100


def requests_of(name, entries):
    """Returns the requests of a client that leaves a room with this many entries, and what the replies begin with."""
    creation = ['["new",1,[],"rect",[["x",0]]]'][: entries - 1]
    puts = [f'["put",{seq},[[1,{seq - 1}]],[1,1],[],[["x",{seq}]]]' for seq in range(2, entries)]
    made = ['["made"'] * len(creation) + ['["taken"'] * len(puts)
    return [f'["join","{name}"]', *creation, *puts, '["leave"]'], ['["joined"', *made, '["left"']


def fill(connection, count, entries):
    """Opens this many rooms with as many entries each."""
    for number in range(count):
        requests, starts = requests_of(f"room-{number}", entries)
        for reply, start in zip(ask(connection, *requests), starts):
            expect_reply(reply, start)


def open_rooms(server):
    """Returns how many rooms are open."""
    return samples(server)["grace_rooms_open"]


def wait_until_closed(server, seconds):
    """Waits until no room is open."""
    end = time.monotonic() + seconds
    while open_rooms(server):
        if time.monotonic() > end:
            sys.exit(f"bench: {open_rooms(server):,} rooms are still open after {seconds:.0f} seconds")
        time.sleep(1)


def memory_of(options, on_demand, keep):
    """Returns the memory in KiB of a server that has just started."""
    with Server(0, [], keep=keep, on_demand=on_demand, close_after=options.close_after) as server:
        connect(server)
        return server.memory()[0]


def measure(options, entries, keep):
    """Returns the KiB of each room: before it is open, while it is open on top of that, and what is left of the latter
    once it is closed, which is None in memory."""
    least = memory_of(options, 1, keep)
    with Server(0, [], keep=keep, on_demand=options.rooms, close_after=options.close_after) as server:
        connection = connect(server)
        before = server.memory()[0]
        fill(connection, options.rooms, entries)
        filled = server.memory()[0]
        if open_rooms(server) != options.rooms:
            sys.exit(f"bench: only {open_rooms(server):,} rooms are open; give a longer --close-after")
        left = None
        if keep:
            wait_until_closed(server, options.close_after + SECONDS)
            left = (server.memory()[0] - before) / options.rooms
    return (before - least) / options.rooms, (filled - before) / options.rooms, left


def kept_in(folder, is_kept):
    """Yields a new folder, or None where nothing is kept."""
    return tempfile.TemporaryDirectory(dir=folder) if is_kept else contextlib.nullcontext()


def main():
    parser = compare_words_of(__doc__, 1)
    parser.add_argument("--rooms", type=int, default=10_000)
    parser.add_argument("--entries", type=int, nargs="+", default=[1, 10], help="entries of a room, at most 1,000")
    parser.add_argument("--close-after", type=int, default=60, metavar="SECONDS",
                        help="when kept rooms are closed; they have to be filled in less")
    parser.add_argument("--folder", type=pathlib.Path, default=ROOT / "bench/out",
                        help="a folder on the disk that keeps the rooms")
    options = parser.parse_args()
    builds = builds_of(options)
    allow_open_files(FILES_A_ROOM * options.rooms + SPARE_FILES)
    options.folder.mkdir(parents=True, exist_ok=True)
    titles(["Build", "Entries of a room", "Kept", "Not open yet, KiB", "Open, KiB more", "Closed again, KiB of these"])
    for _ in range(options.runs):
        for entries in options.entries:
            for is_kept in (False, True):
                for build in builds:
                    use_build(build)
                    with kept_in(options.folder, is_kept) as keep:
                        figures = measure(options, entries, keep)
                    cells = ["" if figure is None else f"{figure:.2f}" for figure in figures]
                    row([build.name, entries, "yes" if is_kept else "no", *cells])


if __name__ == "__main__":
    main()
