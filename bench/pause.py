#!/usr/bin/env python3
"""Measures how long a kept room pauses while the server renews it, and prints a Markdown table. A client changes an
object of a room that becomes nearly full, one request after the other, and another one asks for an object that nobody
changes. The pause is the longest time to a reply of each, in milliseconds, the median of the runs; beside it stands the
median time to a reply. A room of which more than three quarters are drawn is not renewed, and pauses for the search
alone. It measures the program that `./test` proved."""

import pathlib
import statistics
import sys
import tempfile
import threading
import time

from server import Server, program_of, row, titles, words_of

from lib.records import compact

# The entries, and the objects, from which a room is nearly full.
ENTRIES, OBJECTS = 14_746, 7_373
# The objects of which a room is renewed.
DRAWN = 6_144
# The requests of a run. The room is nearly full after some of them.
REQUESTS, LACK = 400, 100
# By name: the entries and the objects of a record, and how many of these are drawn.
RECORDS = [
    ("512 objects", ENTRIES - LACK, 512, 512),
    ("7,372 objects, 6,144 of them drawn", ENTRIES - LACK, OBJECTS - 1, DRAWN),
    ("7,372 objects, all drawn", ENTRIES - LACK, OBJECTS - 1, OBJECTS - 1),
]


def record_of(length, objects, drawn):
    """Returns the text of a record of one site: it creates objects of 8 attributes, drops some of them, and then puts
    values."""
    pairs = [[f"k{number}", number] for number in range(8)]
    entries = [["join", 1]]
    for seq in range(1, length):
        seen = [[1, seq - 1]] if seq > 1 else []
        if seq <= objects:
            entries.append(["new", [1, seq], seen, "rect", pairs])
        elif seq <= 2 * objects - drawn:
            entries.append(["drop", [1, seq], seen, [1, drawn + seq - objects], []])
        else:
            entries.append(["put", [1, seq], seen, [1, seq % drawn + 1], [], [["x", seq]]])
    return "".join(f"{compact(entry)}\n" for entry in entries)


def timed(client, request):
    """Sends a request. Returns the reply and the seconds to it."""
    start = time.monotonic()
    reply = client.ask(request)
    return reply, time.monotonic() - start


def look(client, times, is_over):
    """Asks for an object again and again, until it is over."""
    client.ask('["back","plan",1]')
    while not is_over.is_set():
        times.append(timed(client, '["show",[1,2]]')[1])


def draw(client, length):
    """Puts values, until the room has ended. Returns the seconds to each reply, and whether the room has ended."""
    client.ask('["join","plan"]')
    times = []
    for seq in range(1, REQUESTS + 1):
        own = [[2, seq - 1]] if seq > 1 else []
        reply, seconds = timed(client, compact(["put", seq, [[1, length - 1], *own], [1, 1], [], [["x", seq]]]))
        times.append(seconds)
        if reply.startswith('["no",'):
            return times, reply.endswith(',22,"renewed"]')
    return times, False


def measure(record):
    """Draws in a room with this record. Returns the seconds to each reply of both clients, and whether it was renewed."""
    with tempfile.TemporaryDirectory() as folder:
        (pathlib.Path(folder) / "plan.record").write_text(record)
        with Server(0, ["plan"], keep=folder) as server:
            watching, is_over = [], threading.Event()
            thread = threading.Thread(target=look, args=(server.client(), watching, is_over))
            thread.start()
            drawing, renewed = draw(server.client(), record.count("\n"))
            is_over.set()
            thread.join()
    return drawing, watching, renewed


def main():
    options = words_of(__doc__, 5).parse_args()
    program_of(options)
    titles(["Record", "Renewed", "Longest, who draws", "Median", "Longest, who looks", "Median"])
    for name, length, objects, drawn in RECORDS:
        runs = [measure(record_of(length, objects, drawn)) for _ in range(options.runs)]
        if len({renewed for _, _, renewed in runs}) > 1:
            sys.exit("bench: the runs differ")
        cells = []
        for place in (0, 1):
            cells += [statistics.median(max(run[place]) for run in runs), statistics.median(runs[0][place])]
        row([name, "yes" if runs[0][2] else "no", *(f"{1000 * cell:.1f}" for cell in cells)])


if __name__ == "__main__":
    main()
