#!/usr/bin/env python3
"""Measures `grace check`, and prints a Markdown table: seconds of processor time and the peak of memory, for a record
and its transcripts. The lines are in the order of the answers, site by site, and merged at random. `grace script`
answers the requests. Each check must print `holds`. Run it from anywhere. It measures the
program that `./test` proved."""

import json
import pathlib
import random
import statistics
import subprocess
import sys
import tempfile

from server import measured, program_of, row, titles, words_of

SITES = 8
PAGE = 64
PUTS_AN_OBJECT = 1000


def compact(value):
    """Returns the JSON text of a value without white space."""
    return json.dumps(value, separators=(",", ":"))


class Room:
    """The messages of a script, each with its session, whose number is its site."""

    def __init__(self, entries, seed):
        self.random = random.Random(seed)
        self.objects = entries // PUTS_AN_OBJECT + 1
        self.operations = [0] * (SITES + 1)
        self.messages = [(site, ["join", "r"]) for site in range(1, SITES + 1)]
        for _ in range(self.objects):
            self.add(1, "new", "rect", [["x", 0]])
        for place in range(entries - SITES - self.objects):
            site = self.random.randint(1, SITES)
            self.add(site, "put", [1, place % self.objects + 1], [], [[f"key-{site}", place]])

    def add(self, site, word, *rest):
        """Adds an operation whose state vector covers the creations and the site's own operations."""
        before = self.operations[site]
        counts = {1: self.objects} if word == "put" else {}
        if before > 0:
            counts[site] = before
        self.operations[site] += 1
        self.messages.append((site, [word, before + 1, sorted(map(list, counts.items())), *rest]))

    def with_reads(self, lines):
        """Returns the messages with random reads inserted, so that there are `lines` of them."""
        messages = self.messages
        first = SITES + self.objects
        places = sorted(self.random.randint(first, len(messages)) for _ in range(lines - len(messages)))
        mixed, place = [], 0
        for until in places:
            mixed += messages[place:until]
            mixed.append((self.random.randint(1, SITES), self.read()))
            place = until
        return mixed + messages[place:]

    def read(self):
        """Returns a request that adds no entry."""
        kind = self.random.random()
        if kind < 0.9:
            return ["show", [1, self.random.randint(1, self.objects)]]
        if kind < 0.98:
            return ["list", 0]
        return ["pull", self.random.randint(0, SITES)]


def script(program, messages):
    """Returns the replies to these messages."""
    text = "".join(f"{site} {compact(message)}\n" for site, message in messages)
    output = subprocess.run([program, "script", "r"], input=text, stdout=subprocess.PIPE, text=True, check=True).stdout
    return [line.partition(" ")[2] for line in output.splitlines()]


def draw(program, entries, lines, seed):
    """Returns the record's lines, and the transcript's in the order of the answers."""
    messages = Room(entries, seed).with_reads(lines)
    pulls = [(1, ["pull", place]) for place in range(0, entries, PAGE)]
    replies = script(program, messages + pulls)
    record = [compact(entry) for reply in replies[len(messages) :] for entry in json.loads(reply)[3]]
    transcript = [(site, f"[{site},{compact(message)},{reply}]") for (site, message), reply in zip(messages, replies)]
    if len(record) != entries or any('["no",' in line for _, line in transcript):
        sys.exit("bench: the script has refusals or a wrong number of entries")
    return record, transcript


def merge(transcript, choose):
    """Returns the lines in an order that keeps each site's; `choose` picks the site of the next line."""
    left = {site: [line for of, line in reversed(transcript) if of == site] for site in range(1, SITES + 1)}
    lines = []
    while any(left.values()):
        lines.append(left[choose([site for site in left if left[site]])].pop())
    return lines


def check(program, record, transcript, runs):
    """Returns the median of the processor time, the peak of memory in MiB, and the size of the files in MiB."""
    with tempfile.TemporaryDirectory() as folder:
        paths = [pathlib.Path(folder, name) for name in ("record", "transcript")]
        for path, lines in zip(paths, (record, transcript)):
            path.write_text("".join(f"{line}\n" for line in lines))
        size = sum(path.stat().st_size for path in paths)
        times, peak = [], 0
        for _ in range(runs):
            status, seconds, most, output = measured([program, "check", *paths])
            if (status, output) != (0, ["holds"]):
                sys.exit(f"bench: the check exited with {status} and {output}")
            times.append(seconds)
            peak = max(peak, most)
    return statistics.median(times), peak, size / 2**20


def main():
    words = words_of(__doc__, 3)
    words.add_argument("--seed", type=int, default=1, help="seed of the messages and of the random order")
    words.add_argument("--short", action="store_true", help="only the smaller record")
    options = words.parse_args()
    program = program_of(options)
    titles(["Entries", "Lines", "Their order", "Files, MiB", "Seconds", "Peak, MiB"])
    for entries, lines in ((4096, 25_000), (16_384, 100_000))[: 1 if options.short else 2]:
        record, transcript = draw(program, entries, lines, options.seed)
        choice = random.Random(options.seed).choice
        for order, lines_in_order in (
            ("record alone", []),
            ("as answered", [line for _, line in transcript]),
            ("site by site", merge(transcript, min)),
            ("at random", merge(transcript, choice)),
        ):
            seconds, peak, size = check(program, record, lines_in_order, options.runs)
            row([f"{entries:,}", f"{len(lines_in_order):,}", order, f"{size:.1f}", f"{seconds:.2f}", f"{peak:.0f}"])


if __name__ == "__main__":
    main()
