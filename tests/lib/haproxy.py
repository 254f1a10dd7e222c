"""HAProxy with the lines of examples/operations."""

import contextlib
import socket
import subprocess
import time

from lib.websocket_client import SECONDS


@contextlib.contextmanager
def running_haproxy(folder, port, lines):
    """Runs HAProxy in this folder with these lines, of which one binds this port."""
    (folder / "configuration").write_text(lines)
    process = subprocess.Popen(["haproxy", "-db", "-f", folder / "configuration"])
    try:
        await_port(port, process)
        yield
    finally:
        process.terminate()
        process.wait(SECONDS)


def await_port(port, process):
    """Waits until the process listens at this port."""
    bound = time.monotonic() + SECONDS
    while process.poll() is None and time.monotonic() < bound:
        with contextlib.suppress(ConnectionRefusedError), socket.create_connection(("127.0.0.1", port)):
            return
        time.sleep(0.05)
    raise AssertionError("HAProxy does not start")
