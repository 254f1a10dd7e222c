#!/usr/bin/env python3
"""Measures what the opening of rooms with full records costs, and prints a Markdown table. A client puts values in a
room of `grace serve --rooms 2 --keep DIR` without a pause: alone, while another process keeps a processor busy, and
while another client comes into two rooms with full records in turn, and leaves them. There is one place for the two,
so each is closed when the other is opened, and the server keeps a processor busy too. So what the third row has above
the second is the server's own. The runs take turns. The time of an opening is that to the reply to a back, with the
closing of the other room; the table has the median and the most. Beside it stand the median and the 99th percentile of
the time to the replies of the first client. It measures the program that `./test` proved."""

import itertools
import multiprocessing
import statistics
import tempfile
import time

from server import (
    Server, ask, builds_of, compare_words_of, connect, expect_reply, median_and_slow, row, titles, use_build,
)

from lib.keeping import path_of
from lib.limit_records import MAX_OBJECTS, full
from lib.records import compact

FORK = multiprocessing.get_context("fork")

FULL = ["full-1", "full-2"]
# The first client's room is one of the open ones.
PLACES = 2
# An object takes at most 1,024 changes, and a room is renewed from 14,746 entries on.
PUTS_AN_OBJECT, MOST_PUTS = 1_000, 14_000


def timed(connection, message):
    """Sends a message. Returns the reply and the seconds to it."""
    start = time.monotonic()
    (reply,) = ask(connection, message)
    return reply, time.monotonic() - start


def put(connection, count):
    """Puts this many values to objects of a new room. Returns the seconds to each reply."""
    ask(connection, '["join","drawn"]')
    times, seq, target = [], 0, 0
    for number in range(count):
        if number % PUTS_AN_OBJECT == 0:
            seq, target = seq + 1, seq + 1
            seen = f"[[1,{seq - 1}]]" if seq > 1 else "[]"
            expect_reply(ask(connection, f'["new",{seq},{seen},"rect",[]]')[0], '["made"')
        seq += 1
        reply, seconds = timed(connection, f'["put",{seq},[[1,{seq - 1}]],[1,{target}],[],[["x",{seq}]]]')
        expect_reply(reply, '["taken"')
        times.append(seconds)
    return times


def keep_busy(_server, is_over, found):
    """Keeps a processor busy until it is over. Opens nothing."""
    while not is_over.is_set():
        sum(range(100_000))
    found.put([])


def open_in_turn(server, is_over, found):
    """Comes into the rooms with full records in turn, until it is over. Then puts the seconds to
    each reply into `found`."""
    connection = connect(server)
    times = []
    for room in itertools.cycle(FULL):
        if is_over.is_set():
            found.put(times)
            return
        reply, seconds = timed(connection, f'["back","{room}",1]')
        expect_reply(reply, '["back",16384,1,')
        times.append(seconds)
        ask(connection, '["leave"]')


def measure(record, puts, other):
    """Returns the seconds to the first client's replies, the seconds to each opening, and the seconds of the run.
    Meanwhile a process does the other work, if there is some."""
    with tempfile.TemporaryDirectory() as folder:
        for room in FULL:
            path_of(folder, room).write_text(record)
        with Server(0, [], keep=folder, on_demand=PLACES) as server:
            # A process of its own: two threads of one would wait for each other.
            is_over, found = FORK.Event(), FORK.Queue()
            worker = FORK.Process(target=other or keep_busy, args=(server, is_over, found))
            client, start = connect(server), time.monotonic()
            if other is None:
                is_over.set()
            worker.start()
            times = put(client, puts)
            is_over.set()
            openings = found.get()
            worker.join()
            return times, openings, time.monotonic() - start


# What else happens while the first client puts values.
MEANWHILE = {"nothing": None, "a processor is busy": keep_busy, "rooms are opened and closed": open_in_turn}


def cells_of(runs):
    """Returns the cells of these runs, with times in milliseconds."""
    times, openings = ([seconds for run in runs for seconds in run[place]] for place in (0, 1))
    opened = ["", "", ""]
    if openings:
        a_second = len(openings) / sum(run[2] for run in runs)
        opened = [f"{a_second:.1f}", f"{1000 * statistics.median(openings):.1f}", f"{1000 * max(openings):.1f}"]
    return [*opened, *(f"{1000 * seconds:.3f}" for seconds in median_and_slow(times))]


def main():
    parser = compare_words_of(__doc__, 3)
    parser.add_argument("--puts", type=int, default=MOST_PUTS, help=f"puts of a run, at most {MOST_PUTS:,}")
    parser.add_argument("--objects", type=int, default=512, help=f"objects of a full record, at most {MAX_OBJECTS:,}")
    options = parser.parse_args()
    builds = builds_of(options)
    if not 1 < options.puts <= MOST_PUTS or not 1 <= options.objects <= MAX_OBJECTS:
        parser.error("so many puts or objects are not possible")
    record = "".join(f"{compact(entry)}\n" for entry in full(options.objects).entries)
    titles(["Build", "Meanwhile", "Openings a second", "Median, ms", "Most, ms", "A put, ms", "99%, ms"])
    runs = {(build, name): [] for build in builds for name in MEANWHILE}
    for _ in range(options.runs):
        for (build, name), found in runs.items():
            use_build(build)
            found.append(measure(record, options.puts, MEANWHILE[name]))
    for (build, name), found in runs.items():
        row([build.name, name, *cells_of(found)])


if __name__ == "__main__":
    main()
