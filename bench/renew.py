#!/usr/bin/env python3
"""Measures `grace renew`, and prints a Markdown table: what the renewal of a full record takes in milliseconds of
processor time beyond reading it, with the printing of the new one, and the peak of memory. That is the time of `grace
renew` less that of `grace check` without a transcript, medians of the runs. It measures the program that `./test`
proved."""

import os
import statistics
import sys
import tempfile

from server import measured, program_of, row, titles, words_of

from lib.limit_records import MAX_OBJECTS, full
from lib.records import compact

# The objects of a full record, and the versions of each.
RECORDS = (512, 1), (512, 2), (MAX_OBJECTS, 1)


def times_of(program, words, runs):
    """Returns the processor time of a command, the peak of memory in MiB, and how many lines it printed."""
    times, peak, count = [], 0, 0
    for _ in range(runs):
        status, seconds, most, lines = measured([program, *words])
        if status != 0:
            sys.exit(f"bench: {words[0]} exited with {status}")
        times.append(seconds)
        peak, count = max(peak, most), len(lines)
    return statistics.median(times), peak, count


def main():
    options = words_of(__doc__, 5).parse_args()
    program = program_of(options)
    titles(["Objects", "Versions of each", "Entries", "New entries", "Reading, ms", "Renewing, ms", "Peak, MiB"])
    for objects, versions in RECORDS:
        with tempfile.NamedTemporaryFile("w", suffix=".record") as file:
            entries = full(objects, versions).entries
            file.writelines(f"{compact(entry)}\n" for entry in entries)
            file.flush()
            reading, _, _ = times_of(program, ["check", file.name, os.devnull], options.runs)
            both, peak, count = times_of(program, ["renew", file.name], options.runs)
            row([f"{objects:,}", versions, f"{len(entries):,}", f"{count:,}", f"{1000 * reading:.0f}",
                 f"{1000 * (both - reading):.0f}", f"{peak:.0f}"])


if __name__ == "__main__":
    main()
