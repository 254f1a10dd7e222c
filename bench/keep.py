#!/usr/bin/env python3
"""Measures `grace serve --keep` against what the disk and the system allow, and prints a Markdown table. It has puts a
second with clients all in one room and each in a room of its own. Beside them it has the lines a second of
bench/group_commit.c, which only writes and syncs lines of the same length on the same disk. The two take turns, so that
a slower period of the disk affects both. Each figure is the median of the runs; the last column is the first figure by
the second. Run it from anywhere. It measures the program that `./test` proved."""

import pathlib
import shutil
import statistics
import subprocess
import tempfile

from serve import client_program, measure
from server import ROOT, program_of, row, titles, words_of

LINE = 110
WORK_MICROSECONDS = 5


def recreate(folder):
    """Recreates the folder and returns it."""
    shutil.rmtree(folder, ignore_errors=True)
    folder.mkdir(parents=True)
    return folder


def mock_rate(mock, folder, clients, rooms, seconds):
    """Returns the lines a second of the mock."""
    words = [mock, recreate(folder), *map(str, (clients, rooms, seconds, LINE, WORK_MICROSECONDS))]
    return float(subprocess.run(words, stdout=subprocess.PIPE, check=True, text=True).stdout)


def case(load, mock, folder, options, clients, rooms, puts):
    """Prints the row of one number of clients in these rooms."""
    server_rates, mock_rates = [], []
    for _ in range(options.runs):
        run = measure(load, clients, puts, 1, rooms, recreate(folder))
        server_rates.append(clients * puts / run.seconds)
        mock_rates.append(mock_rate(mock, folder, clients, len(rooms), options.seconds))
    one, other = statistics.median(server_rates), statistics.median(mock_rates)
    kind = "one for all" if len(rooms) == 1 and clients > 1 else "one each"
    row([kind, clients, f"{one:,.0f}", f"{other:,.0f}", f"{one / other:.2f}"])


def main():
    parser = words_of(__doc__, 5)
    parser.add_argument("--clients", type=int, nargs="+", default=[1, 8, 32, 64])
    parser.add_argument("--puts", type=int, default=4000, help="most puts in a room")
    parser.add_argument("--seconds", type=float, default=2, help="seconds of a run of the mock")
    parser.add_argument("--folder", type=pathlib.Path, default=ROOT / "bench/out",
                        help="a folder on the disk to measure")
    options = parser.parse_args()
    program_of(options)
    options.folder.mkdir(parents=True, exist_ok=True)
    with client_program() as load, tempfile.TemporaryDirectory() as made, tempfile.TemporaryDirectory(dir=options.folder) as kept:
        mock, folder = pathlib.Path(made) / "group_commit", pathlib.Path(kept) / "rooms"
        subprocess.run(["gcc", "-O2", "-pthread", "-o", mock, ROOT / "bench/group_commit.c"], check=True)
        titles(["Rooms", "Clients", "Puts a second", "What the disk allows", "Part of it"])
        for clients in options.clients:
            if clients > 1:
                case(load, mock, folder, options, clients, ["room"], options.puts // clients)
            rooms = [f"room-{number}" for number in range(clients)]
            case(load, mock, folder, options, clients, rooms, options.puts // 4)


if __name__ == "__main__":
    main()
