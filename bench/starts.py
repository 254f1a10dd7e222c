#!/usr/bin/env python3
"""Measures how long `grace serve --keep` takes to start over full records, and prints a Markdown table. The time is
from the start of the program to its line `listening ..`, the median of the runs, with one room and with 64. Each record
has 16,384 entries: a join, objects and puts on them. `--objects` gives their number, at most 8,192. Run it from
anywhere. It measures the program that `./test` proved."""

import json
import pathlib
import statistics
import tempfile

from server import Server, program_of, row, titles, words_of

ENTRIES = 16_384


def full_record(objects):
    """Returns the text of a full record, by one site, of this many objects."""
    entries = [["join", 1]]
    for seq in range(1, ENTRIES):
        seen = [[1, seq - 1]] if seq > 1 else []
        if seq <= objects:
            entries.append(["new", [1, seq], seen, "rect", [["x", 0], ["y", 0]]])
        else:
            entries.append(["put", [1, seq], seen, [1, seq % objects + 1], [], [["x", seq], ["y", seq]]])
    return "".join(json.dumps(entry, separators=(",", ":")) + "\n" for entry in entries)


def seconds_to_start(folder, rooms):
    """Returns the seconds until the server listens."""
    with Server(1, rooms, keep=folder) as server:
        return server.seconds_to_listen


def main():
    parser = words_of(__doc__, 5)
    parser.add_argument("--rooms", type=int, nargs="+", default=[1, 64])
    parser.add_argument("--objects", type=int, default=512)
    options = parser.parse_args()
    program_of(options)
    record = full_record(options.objects)
    titles(["Rooms with full records", "Seconds to start"])
    for count in options.rooms:
        rooms = [f"room-{number}" for number in range(count)]
        with tempfile.TemporaryDirectory() as folder:
            for room in rooms:
                (pathlib.Path(folder) / f"{room}.record").write_text(record)
            row([count, f"{statistics.median(seconds_to_start(folder, rooms) for _ in range(options.runs)):.2f}"])


if __name__ == "__main__":
    main()
