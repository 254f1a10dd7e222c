#!/usr/bin/env python3
"""Counts the instructions of `grace script` a message on the scripts of bench/script.py, and prints a Markdown table.
Callgrind of valgrind counts them, so other work on the machine changes nothing. The start of the program is not
counted. With `--against PROGRAM` a second build runs the same scripts, and must print the same bytes. The last line is
the geometric mean of the ratios. A run under callgrind is slow, so the scripts are a tenth as long; `--part` gives
another part. Run it from anywhere. It measures the program that `./test` proved."""

import math
import pathlib
import re
import subprocess
import sys
import tempfile

from script import CASES, check
from server import program_of, row, titles, words_of

COLLECTED = re.compile(r"^==\d+== Collected : (\d+)$", re.MULTILINE)
# Scripts whose size counts what happens many times: a shorter one would leave out what they are about.
WHOLE = {"a chain of 1,024 puts, 16 rooms", "vectors of 256 sites"}
LEAST = 16


def instructions_of(program, rooms, data, folder):
    """Runs a program once on these bytes. Returns the number of its instructions, and the answers."""
    source, answers = folder / "source", folder / "answers"
    source.write_bytes(data)
    words = ["valgrind", "--tool=callgrind", "--callgrind-out-file=/dev/null", program, "script", *rooms]
    with source.open() as given, answers.open("wb") as got:
        done = subprocess.run(words, stdin=given, stdout=got, stderr=subprocess.PIPE, text=True)
    found = COLLECTED.search(done.stderr)
    if done.returncode != 0 or not found:
        sys.exit(f"bench: {program} exited with {done.returncode}: {done.stderr[-300:]}")
    return int(found[1]), answers.read_bytes()


def measure(name, script, programs):
    """Returns the instructions a message of each program."""
    counts, first = [], None
    with tempfile.TemporaryDirectory() as name_of_folder:
        folder = pathlib.Path(name_of_folder)
        for program in programs:
            start, _ = instructions_of(program, script.rooms, b"", folder)
            whole, answers = instructions_of(program, script.rooms, script.front(1), folder)
            check(script, name, answers)
            first = first or answers
            if answers != first:
                sys.exit(f"bench: {name}: {program} prints other bytes")
            counts.append((whole - start) / len(script.lines))
    return counts


def size_of(name, size, part):
    """The size of a script of which this part is run."""
    return size if name in WHOLE else max(LEAST, round(size * part))


def main():
    parser = words_of(__doc__)
    parser.add_argument("--against", type=pathlib.Path, metavar="PROGRAM")
    parser.add_argument("--only", default="", metavar="WORD", help="only scripts with WORD in their names")
    parser.add_argument("--part", type=float, default=0.1, help="the part of each script's size that is run")
    options = parser.parse_args()
    programs = [program_of(options)] + ([options.against.resolve()] if options.against else [])
    titles(["Script", "Messages", "Instructions a message", *(["the other's", "ratio"] if len(programs) == 2 else [])])
    ratios = []
    for name, make, size in CASES:
        if options.only not in name:
            continue
        script = make(size_of(name, size, options.part))
        counts = measure(name, script, programs)
        cells = [f"{count:,.0f}" for count in counts]
        if len(counts) == 2:
            ratios.append(counts[0] / counts[1])
            cells.append(f"{ratios[-1]:.3f}")
        row([name, f"{len(script.lines):,}", *cells])
    if ratios:
        print(f"\ngeometric mean of the ratios: {math.exp(sum(map(math.log, ratios)) / len(ratios)):.3f}")


if __name__ == "__main__":
    main()
