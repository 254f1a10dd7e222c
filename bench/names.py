#!/usr/bin/env python3
"""Measures what many names of rooms on demand leave behind in `grace serve --rooms 100 --keep DIR --close-after 1`,
and prints a Markdown table. One client joins a room and leaves it, then one of another name, and so on. After 100
visits and after each tenth of them a row has the memory of the process, the rooms' files that it has open, and the
median and the 99th percentile of the time to the replies to the entrances since the row before. A file may be open
twice, as its chain's lock too. The last row is of the time when all rooms are closed. With `--of COUNT` the client
comes into that many rooms again and again: into each it joins once, and then comes back as its site. So what grows
only with more names is what names leave behind. For up to two seconds the server remembers what is kept of a room that
it closed, so memory grows with the rate too, which `--rate` bounds. A run ends at `--minutes` with the rows that it
has. It measures the program that `./test` proved."""

import contextlib
import pathlib
import tempfile
import time

from server import (
    ROOT, Server, ask, builds_of, compare_words_of, connect, expect_reply, median_and_slow, row, titles, use_build,
)

from lib.observing import samples

ROOMS, CLOSE_AFTER = 100, 1
FIRST, TENTHS = 100, 10
# The seconds after which all rooms are closed.
CLOSED = 3 * CLOSE_AFTER + 2


def open_files_of(server):
    """Returns how many rooms' files the server has open."""
    count = 0
    for link in pathlib.Path(f"/proc/{server.process.pid}/fd").iterdir():
        # It may have been closed meanwhile.
        with contextlib.suppress(FileNotFoundError):
            count += link.readlink().name.endswith(".record")
    return count


def visit(connection, visits, names, end, pause):
    """Enters and leaves a room at each of these visits, the rooms of so many names in turn, until the end of the time.
    A visit begins so many seconds after the one before, or later. Returns the seconds to each entrance's reply."""
    times, due = [], time.monotonic()
    for number in visits:
        time.sleep(max(0, due - time.monotonic()))
        due = max(due, time.monotonic()) + pause
        if time.monotonic() > end:
            break
        name = f"name-{number % names}"
        asked, expected = f'["join","{name}"]', '["joined",0,1]'
        if number >= names:
            asked, expected = f'["back","{name}",1]', '["back",1,1'
        start = time.monotonic()
        (reply,) = ask(connection, asked)
        times.append(time.monotonic() - start)
        expect_reply(reply, expected)
        ask(connection, '["leave"]')
    return times


def print_row(build, server, visits, times):
    """Prints a row, with the entrances of these times."""
    memory, files = server.memory()[0] / 1024, open_files_of(server)
    cells = [f"{1000 * seconds:.2f}" for seconds in median_and_slow(times)] if times else ["", ""]
    row([build.name, f"{visits:,}", f"{memory:.2f}", files, samples(server)["grace_rooms_open"], *cells])


def measure(build, folder, options):
    """Prints the rows of a run."""
    use_build(build)
    end = time.monotonic() + 60 * options.minutes
    visits, names = options.visits, options.of or options.visits
    pause = 1 / options.rate if options.rate else 0
    steps = sorted({min(FIRST, visits), *(visits * tenth // TENTHS for tenth in range(1, TENTHS + 1))})
    with tempfile.TemporaryDirectory(dir=folder) as kept:
        with Server(0, [], keep=kept, on_demand=ROOMS, close_after=CLOSE_AFTER) as server:
            connection, made = connect(server), 0
            for step in steps:
                times = visit(connection, range(made, step), names, end, pause)
                made += len(times)
                if times:
                    print_row(build, server, made, times)
            time.sleep(CLOSED)
            print_row(build, server, made, [])


def main():
    parser = compare_words_of(__doc__, 1)
    parser.add_argument("--visits", type=int, default=100_000, help="entrances of a run")
    parser.add_argument("--of", type=int, help="rooms that are entered; otherwise each is entered once")
    parser.add_argument("--rate", type=float, help="visits a second at most; otherwise as many as the client can make")
    parser.add_argument("--minutes", type=float, default=10, help="the longest time of a run")
    parser.add_argument("--folder", type=pathlib.Path, default=ROOT / "bench/out",
                        help="a folder on the disk that keeps the rooms")
    options = parser.parse_args()
    builds = builds_of(options)
    options.folder.mkdir(parents=True, exist_ok=True)
    titles(["Build", "Visits", "MiB", "Rooms' files open", "Rooms open", "Entrance, ms", "99%, ms"])
    for _ in range(options.runs):
        for build in builds:
            measure(build, options.folder, options)


if __name__ == "__main__":
    main()
