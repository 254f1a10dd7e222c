#!/usr/bin/env python3
"""Measures how soon news comes by waits, and prints two Markdown tables. In the first, clients in one room each hold a
wait and put a value once a second; the times are from the sending of a put to its arrival at another client. In the
second, clients each hold a wait in a room in which nothing happens; it has the server's processor time. The clients are
bench/news.rs, which `rustc` compiles. They share the cores with the server. Each run has a fresh server. Figures are
medians of the runs. It measures the program that `./test` proved."""

import contextlib
import pathlib
import statistics
import subprocess
import sys
import tempfile

from server import ROOT, SECONDS, Server, program_of, row, titles, words_of

PUTS = 20
STILL_SECONDS = 10


@contextlib.contextmanager
def client_program():
    """Compiles the clients. Yields their program."""
    with tempfile.TemporaryDirectory() as folder:
        news = pathlib.Path(folder) / "news"
        subprocess.run(["rustc", "--edition", "2021", "-O", "-o", news, ROOT / "bench/news.rs"], check=True)
        yield news


def measure(news, clients, puts, period):
    """Runs the clients once with a fresh server. Returns the number of news, their median and 99th percentile in
    milliseconds, and the server's processor seconds."""
    with Server(clients, ["room"]) as server:
        command = [news, server.name, *map(str, (clients, puts, period)), "room"]
        running = subprocess.Popen(command, stdin=subprocess.PIPE, stdout=subprocess.PIPE, text=True)
        if running.stdout.readline() != "ready\n":
            sys.exit("bench: the clients did not get ready")
        before = server.processor()
        output, _ = running.communicate("\n", timeout=SECONDS)
        after = server.processor()
        if running.returncode != 0:
            sys.exit("bench: the clients did not end well")
        count, median, slow = map(int, output.split())
        return count, median / 1e6, slow / 1e6, after - before


def main():
    parser = words_of(__doc__, 3)
    parser.add_argument("--clients", type=int, nargs="+", default=[8, 60, 120])
    options = parser.parse_args()
    program_of(options)
    with client_program() as news:
        titles(["Clients", "Entries a second", "Median, milliseconds", "99th percentile", "Processor, % of a core"])
        for count in options.clients:
            runs = [measure(news, count, PUTS, 1000) for _ in range(options.runs)]
            if any(run[0] != count * (count - 1) * PUTS for run in runs):
                sys.exit("bench: news were lost")
            median, slow, processor = (statistics.median(run[place] for run in runs) for place in (1, 2, 3))
            row([count, count, f"{median:.2f}", f"{slow:.2f}", f"{processor / PUTS * 100:.1f}"])
        print()
        titles(["Clients that wait", "Processor, % of a core"])
        for count in options.clients:
            runs = [measure(news, count, 0, STILL_SECONDS * 1000) for _ in range(options.runs)]
            row([count, f"{statistics.median(run[3] for run in runs) / STILL_SECONDS * 100:.2f}"])


if __name__ == "__main__":
    main()
