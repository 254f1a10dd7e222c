#!/usr/bin/env python3
"""Measures `grace serve` on loopback, and prints a Markdown table, with clients each in a room of its own and all in
one room. It has puts a second, the median and 99th percentile of the time to a reply, and the server's processor time a
put. The clients are bench/load.rs, which `rustc` compiles. They share the cores with the server, so the figures are for
one machine that runs both; with `--apart` the server has the first half of the processors to itself, and the clients
the others. With `--against PROGRAM` a second build takes turns with the first, and its figures are in further columns.
Each run has a fresh server. Times are the median of the runs; processor time is that of all runs. Run it from anywhere.
It measures the program that `./test` proved."""

import collections
import contextlib
import os
import pathlib
import statistics
import subprocess
import sys
import tempfile

from server import ROOT, SECONDS, Server, program_of, row, serving, titles, words_of

# A record has at most 16,384 entries and an object at most 1,024 puts, so a client creates an object for each 1,000
# puts.
PUTS_OF_A_ROOM = 16_000
PUTS_OF_A_CLIENT = 15_000
PUTS_OF_ALL = 240_000
PUTS_AN_OBJECT = 1000

Run = collections.namedtuple("Run", "seconds median slow processor")

# A build of the program, and the number of threads that it is told to serve with.
Build = collections.namedtuple("Build", "program threads")


def halves():
    """Returns the processors of this process in two halves: for a server, and for its clients."""
    processors = sorted(os.sched_getaffinity(0))
    middle = len(processors) // 2
    return processors[:middle], processors[middle:]


def pinned(processors):
    """Returns the words that run a command on these processors."""
    return ["taskset", "-c", ",".join(map(str, processors))]


@contextlib.contextmanager
def client_program():
    """Compiles the clients. Yields their program."""
    with tempfile.TemporaryDirectory() as folder:
        load = pathlib.Path(folder) / "load"
        subprocess.run(["rustc", "--edition", "2021", "-O", "-o", load, ROOT / "bench/load.rs"], check=True)
        yield load


def load_rooms(load, server, clients, puts, in_flight, rooms, wrapper=()):
    """Runs the clients once in these rooms of a server."""
    command = [*wrapper, load, server.name, *map(str, (clients, puts, in_flight)), *rooms]
    loading = subprocess.Popen(command, stdin=subprocess.PIPE, stdout=subprocess.PIPE, text=True)

    def next_words():
        loading.stdin.write("\n")
        loading.stdin.flush()
        return loading.stdout.readline().split()

    if loading.stdout.readline() != "ready\n":
        sys.exit("bench: the clients did not get ready")
    before = server.processor()
    done = next_words()
    after = server.processor()
    times = next_words()
    if loading.wait(SECONDS) != 0 or len(done) != 2 or len(times) != 2:
        sys.exit("bench: the clients did not end well")
    return Run(int(done[1]) / 1e9, int(times[0]) / 1e3, int(times[1]) / 1e3, after - before)


def measure(load, clients, puts, in_flight, rooms, keep=None, apart=False):
    """Runs the clients once with a fresh server. With `apart` these and the server have processors of their own."""
    wrappers = [pinned(half) for half in halves()] if apart else [(), ()]
    with Server(clients, rooms, keep=keep, wrapper=wrappers[0]) as server:
        run = load_rooms(load, server, clients, puts, in_flight, rooms, wrappers[1])
        server.expect_entries(clients // len(rooms) * (1 + -(-puts // PUTS_AN_OBJECT) + puts))
        return run


def use(build):
    """Has servers be of this build from now on."""
    os.environ["GRACE"] = str(build.program)
    os.environ["WORKERS"] = str(build.threads)
    serving.program.cache_clear()


def measure_in_turns(builds, runs, *words, **options):
    """Returns the runs of each build."""
    found = [[] for _ in builds]
    for _ in range(runs):
        for build, its_runs in zip(builds, found):
            use(build)
            its_runs.append(measure(*words, **options))
    return found


def rate(runs, puts):
    """Returns the puts a second of these runs, each with this many puts."""
    return statistics.median(puts / run.seconds for run in runs)


def figures(found, puts):
    """Returns the cells of the runs of each build, each run with this many puts."""
    rates = [rate(runs, puts) for runs in found]
    cells = [f"{value:,.0f}" for value in rates]
    if len(rates) == 2:
        cells.append(f"{rates[0] / rates[1]:.2f}")
    cells += [f"{statistics.median(run.median for run in runs):,.0f}" for runs in found]
    cells += [f"{statistics.median(run.slow for run in runs):,.0f}" for runs in found]
    return cells + [f"{sum(run.processor for run in runs) / (puts * len(runs)) * 1e6:.1f}" for runs in found]


def heads(count):
    """Returns the titles of the columns, for one build or two."""
    other = ["the other's"] if count == 2 else []
    ratio = ["ratio"] if count == 2 else []
    return [
        "Rooms", "Clients", "Puts a second", *other, *ratio, "Median, microseconds", *other, "99th percentile", *other,
        "Processor, microseconds a put", *other,
    ]


def table(load, builds, options):
    """Prints the rows of each number of clients, in rooms of their own and in one."""
    titles(heads(len(builds)))
    for count in options.clients:
        own = min(PUTS_OF_A_CLIENT, PUTS_OF_ALL // count, options.puts)
        cases = [
            ("one each", own, [f"room-{number}" for number in range(count)]),
            ("one for all", min(PUTS_OF_A_ROOM, options.puts) // count, ["room"]),
        ]
        for name, puts, rooms in cases:
            found = measure_in_turns(
                builds, options.runs, load, count, puts, options.in_flight, rooms, apart=options.apart
            )
            row([name, count, *figures(found, puts * count)])


def main():
    parser = words_of(__doc__, 5)
    parser.add_argument("--clients", type=int, nargs="+", default=[1, 8, 32, 64])
    parser.add_argument("--puts", type=int, default=PUTS_OF_A_ROOM, help="most puts in a room, for a quick run")
    parser.add_argument("--in-flight", type=int, default=1, metavar="K", help="requests in flight of each client")
    parser.add_argument("--apart", action="store_true", help="processors of their own for the server and the clients")
    parser.add_argument("--against", type=pathlib.Path, metavar="PROGRAM", help="another build, which takes turns")
    parser.add_argument("--against-threads", type=int, default=0, metavar="N",
                        help="the other's number of threads; a server of version 0.3 needs one for each client")
    options = parser.parse_args()
    builds = [Build(program_of(options), os.environ.get("WORKERS", "0"))]
    if options.against:
        builds.append(Build(options.against.resolve(), options.against_threads))
    with client_program() as load:
        table(load, builds, options)


if __name__ == "__main__":
    main()
