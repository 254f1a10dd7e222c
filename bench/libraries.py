#!/usr/bin/env python3
"""Measures libraries by themselves, and prints Markdown tables.

    threads   calls a second on rooms behind locks: threads in one room, threads in
              rooms of their own, and as many programs of one thread each, which
              shows what the machine can do
    sites     nanoseconds for a join, a coming back and a call, in rooms with few
              and with many entries
    replicas  what a page costs a replica, at the start and at the end of a record
              of 16,000 entries

It proves and builds the programs in bench/ over a copy of the tree. The figures are the median of 20 rounds for
`threads`, the median of 9 for `sites`, and the best of 5 for `replicas`."""

import collections
import contextlib
import pathlib
import statistics
import subprocess
import sys
import tempfile

sys.dont_write_bytecode = True
sys.path.append(str(pathlib.Path(__file__).resolve().parent.parent / "tests"))

from lib.tree_copy import copy_tree

PROGRAMS = {
    "threads": ("lock_bench", "base_types rules wire room_core room_lock"),
    "sites": ("site_bench", "base_types rules wire room_lock"),
    "replicas": ("replica_bench", "base_types rules wire room_core late_join"),
}


@contextlib.contextmanager
def program(crate, libraries):
    """Proves and builds the program. Yields its path."""
    with tempfile.TemporaryDirectory() as name:
        folder = copy_tree(pathlib.Path(name), crate, f"bench/{crate}", libraries)
        built = subprocess.run(["rt", "run"], cwd=folder, capture_output=True, text=True)
        if not (folder / "out" / crate).is_file():
            sys.exit(built.stderr)
        yield folder / "out" / crate


def lines_of(path, *words, times=1):
    """Runs the program this many times in parallel. Returns, for each run, the words of each line of output."""
    runs = [subprocess.Popen([path, *words], stdout=subprocess.PIPE, text=True) for _ in range(times)]
    return [[line.split() for line in run.communicate()[0].splitlines()] for run in runs]


def medians(lines):
    """Returns the calls a second of each case, the median of the run's rounds."""
    rates = collections.defaultdict(list)
    for kind, threads, calls, micros in lines:
        rates[kind, int(threads)].append(int(calls) * 1_000_000 / int(micros))
    return {case: statistics.median(rounds) for case, rounds in rates.items()}


def threads():
    """Prints the table of `threads`."""
    with program(*PROGRAMS["threads"]) as path:
        rates = medians(*lines_of(path))
        print("| Threads | All in one room | Each in rooms of its own | As many programs |")
        print("|---|---|---|---|")
        for count in (1, 2, 4, 8):
            alone = sum(medians(lines)["apart", 1] for lines in lines_of(path, "1", times=count))
            print(f"| {count} | {rates['one', count]:,.0f} | {rates['apart', count]:,.0f} | {alone:,.0f} |")


def sites():
    """Prints the table of `sites`."""
    times = collections.defaultdict(list)
    with program(*PROGRAMS["sites"]) as path:
        [lines] = lines_of(path)
    for kind, entries, nanos in lines:
        times[int(kind), int(entries)].append(int(nanos))
    sizes = sorted({entries for _, entries in times})
    print("| Entries |", " | ".join(f"{size:,}" for size in sizes), "|")
    print("|---" * (len(sizes) + 1) + "|")
    for kind, name in enumerate(("a join and its leave", "a coming back and its leave", "a list of objects")):
        print(f"| {name} |", " | ".join(f"{statistics.median(times[kind, size]):,.0f}" for size in sizes), "|")


def replicas():
    """Prints the table of `replicas`."""
    least = {}
    with program(*PROGRAMS["replicas"]) as path:
        [lines] = lines_of(path)
    for _, last, nanos in lines:
        micros = int(nanos) / 1000 / 50
        least[int(last)] = min(micros, least.get(int(last), micros))
    print("| Pages of 64 entries | Microseconds a page |")
    print("|---|---|")
    for last in sorted(least):
        print(f"| {last - 48} to {last + 1} | {least[last]:.0f} |")


def main():
    measures = {"threads": threads, "sites": sites, "replicas": replicas}
    for name in sys.argv[1:] or measures:
        measures[name]()


if __name__ == "__main__":
    main()
