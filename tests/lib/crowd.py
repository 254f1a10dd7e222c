"""Runs clients in parallel: in threads of this process, or in several processes where one would be too slow."""

import multiprocessing
import signal
import threading
import time

from lib.websocket_client import SECONDS


class Crowd:
    """Threads of clients, and the exceptions that they raised."""

    def __init__(self):
        self.faults = []
        self.threads = []

    def start(self, work, *arguments):
        """Starts a thread that calls `work` with these arguments."""
        def guarded():
            try:
                work(*arguments)
            except Exception as fault:
                self.faults.append(fault)
        self.threads.append(threading.Thread(target=guarded, daemon=True))
        self.threads[-1].start()

    def end(self, seconds=3 * SECONDS):
        """Joins all threads within this many seconds. Raises the first exception of a thread."""
        bound = time.monotonic() + seconds
        for thread in self.threads:
            thread.join(max(0, bound - time.monotonic()))
        if self.faults:
            raise self.faults[0]
        if any(thread.is_alive() for thread in self.threads):
            raise AssertionError("a client did not finish")


# ---- in several processes

# A process of clients begins as a copy of this one.
FORK = multiprocessing.get_context("fork")


def serve_share(pipe, share):
    """Does with this share what comes over the pipe, and sends the result, or why there is none."""
    signal.signal(signal.SIGINT, signal.SIG_IGN)
    while True:
        work, arguments = pipe.recv()
        try:
            pipe.send((work(share, *arguments), None))
        except Exception as fault:
            pipe.send((None, f"{type(fault).__name__}: {fault}"))


class Shares:
    """Processes that have a share of the clients each. A share is any value; its process keeps it from call to call."""

    def __init__(self, shares):
        self.pipes, self.processes = [], []
        for share in shares:
            pipe, other = FORK.Pipe()
            self.pipes.append(pipe)
            self.processes.append(FORK.Process(target=serve_share, args=(other, share), daemon=True))

    def __enter__(self):
        for process in self.processes:
            process.start()
        return self

    def __exit__(self, *_):
        for process in self.processes:
            process.terminate()
        for process in self.processes:
            process.join()

    def begin(self, work, *arguments):
        """Has each process call `work` with its share and these arguments."""
        for pipe in self.pipes:
            pipe.send((work, arguments))

    def results(self, seconds=3 * SECONDS):
        """Returns what each process has returned, within this many seconds. Raises if a call raised."""
        bound, found = time.monotonic() + seconds, []
        for pipe in self.pipes:
            if not pipe.poll(max(0, bound - time.monotonic())):
                raise AssertionError("a process of clients did not finish")
            result, fault = pipe.recv()
            if fault:
                raise AssertionError(fault)
            found.append(result)
        return found

    def call(self, work, *arguments):
        """Begins, and returns the results."""
        self.begin(work, *arguments)
        return self.results()
