"""Shared code of the benches: the program, its server, the time and memory of a command, and tables."""

import argparse
import os
import pathlib
import re
import resource
import statistics
import subprocess
import sys
import time

sys.dont_write_bytecode = True
ROOT = pathlib.Path(__file__).resolve().parent.parent
sys.path.append(str(ROOT / "tests"))

from lib import serving
from lib.websocket_client import TEXT, Connection, frame

# The time limit of a server's start, and of its end.
SECONDS = 120

# Runs a command, with standard input and output from and to files if they are given. Prints its status, processor
# seconds and peak memory in KiB. It is a process of its own, as the system reports a child's peak memory as no less
# than its parent's at the fork.
STARTER = """
import os, sys
source, output, *command = sys.argv[1:]
child = os.fork()
if child == 0:
    if source:
        os.dup2(os.open(source, os.O_RDONLY), 0)
    if output:
        os.dup2(os.open(output, os.O_WRONLY | os.O_CREAT | os.O_TRUNC, 0o600), 1)
    os.execv(command[0], command)
usage = os.wait4(child, 0)
print(usage[1], usage[2].ru_utime + usage[2].ru_stime, usage[2].ru_maxrss)
"""


# ---- the command line, and the program


def words_of(doc, runs=None):
    """Returns the parser of a bench that makes this many runs by default. One that counts has no runs."""
    parser = argparse.ArgumentParser(description=doc)
    if runs is not None:
        parser.add_argument("--runs", type=int, default=runs)
    parser.add_argument("--program", type=pathlib.Path,
                        help="another build of the program; the variable GRACE also names one")
    return parser


def program_of(options):
    """The program to measure, also for `Server`: the one that `--program` or GRACE names, otherwise the proved one. Ends
    with a line if there is no proved program of the sources as they are."""
    if options.program:
        os.environ["GRACE"] = str(options.program.resolve())
    return use_proved_program()


def compare_words_of(doc, runs):
    """Returns the parser of a bench that may compare two builds."""
    parser = words_of(doc, runs)
    parser.add_argument("--against", type=pathlib.Path, metavar="PROGRAM",
                        help="a second build, which is measured in turn with the first")
    return parser


def builds_of(options):
    """The programs to measure: that of `program_of`, and the one that `--against` names."""
    programs = [program_of(options)]
    return programs + [options.against.resolve()] if options.against else programs


def use_build(program):
    """Has servers that start from now on run this program."""
    os.environ["GRACE"] = str(program)
    serving.program.cache_clear()


def use_proved_program():
    """Has GRACE name the proved program, unless it names one already. Returns the path."""
    if not os.environ.get("GRACE"):
        found = subprocess.run([ROOT / "build", "--proved"], stdout=subprocess.PIPE, text=True)
        if found.returncode:
            sys.exit(found.returncode)
        os.environ["GRACE"] = found.stdout.rstrip("\n")
    return serving.program()


# ---- what is measured


class Server(serving.Server):
    """`grace serve` with a thread for each processor, and its times. The variable WORKERS gives another number of
    threads: a server of version 0.3 needs one for each client."""

    def __init__(self, sessions, rooms, patience=SECONDS, keep=None, **options):
        workers = os.environ.get("WORKERS", "0")
        super().__init__(sessions, int(workers), rooms, patience=patience, keep=keep, **options)
        self.seconds_to_listen = None

    def listen(self):
        start = time.monotonic()
        super().listen()
        self.seconds_to_listen = time.monotonic() - start

    def processor(self):
        """Returns the seconds of processor time so far."""
        words = pathlib.Path(f"/proc/{self.process.pid}/stat").read_text().rpartition(")")[2].split()
        return (int(words[11]) + int(words[12])) / os.sysconf("SC_CLK_TCK")

    def expect_entries(self, entries):
        """Expects that the server exits with status 0, with this many entries in each room."""
        heads = [line for line in self.output() if line.startswith("room ")]
        if self.process.returncode != 0 or heads != [f"room {room} {entries}" for room in self.rooms]:
            sys.exit(f"bench: the server exited with {self.process.returncode} and {heads!r:.300}")


def allow_open_files(count):
    """Lets this process and those that it starts have so many open files. Ends with a line if the system does not."""
    soft, hard = resource.getrlimit(resource.RLIMIT_NOFILE)
    try:
        resource.setrlimit(resource.RLIMIT_NOFILE, (max(soft, count), max(hard, count)))
    except (ValueError, OSError):
        sys.exit(f"bench: needs {count:,} open files, and the system allows {hard:,}")


def measured(command, source="", output=""):
    """Runs a command to its end. Returns its status, processor seconds, peak memory in MiB, and the lines that it
    printed if `output` names no file."""
    words = [sys.executable, "-I", "-S", "-c", STARTER, source, output, *command]
    *lines, last = subprocess.run(words, stdout=subprocess.PIPE, text=True, check=True).stdout.splitlines()
    status, seconds, peak = re.fullmatch(r"(\d+) ([\d.e-]+) (\d+)", last).groups()
    return int(status), float(seconds), int(peak) / 1024, lines


# ---- clients


def connect(server):
    """Returns a connection that has shaken hands. Unlike a client of the tests it records nothing."""
    connection = Connection(server.address)
    connection.open()
    return connection


def ask(connection, *messages):
    """Sends these messages at once. Returns the replies as texts."""
    connection.send(b"".join(frame(TEXT, message.encode()) for message in messages))
    return [connection.read_frame()[1].decode() for _ in messages]


def expect_reply(reply, start):
    """Ends the bench with a line unless the reply begins with this text."""
    if not reply.startswith(start):
        sys.exit(f"bench: a reply is {reply:.200}, and not {start}..")


def median_and_slow(times):
    """Returns the median and the 99th percentile of these times."""
    return statistics.median(times), statistics.quantiles(times, n=100)[98] if len(times) > 1 else times[0]


# ---- tables


def row(cells):
    """Prints a row of a table."""
    print("| " + " | ".join(map(str, cells)) + " |", flush=True)


def titles(cells):
    """Prints the first two rows of a table."""
    row(cells)
    row(["---"] * len(cells))
