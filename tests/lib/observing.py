"""What an operator sees: the metrics and the reports of a server."""

import re
import socket
import time

from lib.checks import check
from lib.websocket_client import SECONDS, head, new_key

# The seconds between two pieces of what is sent.
APART = 0.02
METRICS = b"GET /metrics HTTP/1.1\r\nHost: localhost\r\n\r\n"
HEAD = re.compile(
    rb"HTTP/1\.1 200 OK\r\nContent-Type: text/plain; version=0\.0\.4\r\nContent-Length: (\d+)\r\n"
    rb"Cache-Control: no-store\r\nConnection: close\r\n\r\n"
)
HEALTHY = (
    b"HTTP/1.1 200 OK\r\nContent-Type: text/plain\r\nContent-Length: 3\r\nCache-Control: no-store\r\n"
    b"Connection: close\r\n\r\nok\n"
)
TURNED_AWAY = (
    b"HTTP/1.1 503 Service Unavailable\r\nRetry-After: 5\r\nContent-Length: 0\r\nConnection: close\r\n\r\n"
)
SAMPLE = re.compile(r'(grace_[a-z_]+)(\{[a-z]+="[^"]*"(?:,[a-z]+="[^"]*")*\})? (\d+(?:\.\d{6})?)')
# What may follow the name of a family, by its type.
SUFFIXES = {"counter": [""], "gauge": [""], "histogram": ["_bucket", "_sum", "_count"]}


def wait_until(what, is_so):
    """Waits until the condition holds."""
    bound = time.monotonic() + SECONDS
    while not is_so():
        if time.monotonic() > bound:
            raise AssertionError(f"not within {SECONDS} seconds: {what}")
        time.sleep(0.02)


def answer_to(server, *pieces):
    """Connects and sends these bytes, a little apart. Returns all that the server sends until the connection ends."""
    with socket.create_connection(server.address, SECONDS) as client:
        for place, piece in enumerate(pieces):
            time.sleep(APART if place else 0)
            client.sendall(piece)
        received = b""
        while data := client.recv(4096):
            received += data
        return received


def expect_turned_away(server, target="/"):
    """Expects that the server turns a further client away, who asks for this target."""
    check.assertEqual(answer_to(server, head(new_key(), target)), TURNED_AWAY, "the answer")


def samples(server):
    """Returns the samples by their name and labels. Each has the help and the type of its family before it."""
    answer = answer_to(server, METRICS)
    head = HEAD.match(answer)
    if not head:
        raise AssertionError(f"the answer {answer!r:.300}")
    body = answer[head.end():].decode()
    check.assertEqual(len(body), int(head[1]), "the length of the body")
    found, family, names = {}, None, []
    for line in body.splitlines():
        if line.startswith("# HELP "):
            family = line.split()[2]
        elif line.startswith("# TYPE "):
            check.assertEqual(line.split()[2], family, "the family")
            names = [family + suffix for suffix in SUFFIXES[line.split()[3]]]
        else:
            name, labels, number = SAMPLE.fullmatch(line).groups()
            check.assertIn(name, names, "whether the sample is of its family")
            found[name + (labels or "")] = float(number) if "." in number else int(number)
    return found


def report_of(server, clients, begun, rooms):
    """Returns the lines of a report: current and started sessions, and joins, entries and objects of each room."""
    of_all = f"/{server.sessions}" if server.sessions else ""
    lines = [f"report: server clients {clients}/{server.places} begun {begun}{of_all}"]
    for room, (joins, entries, objects) in rooms.items():
        lines.append(f"report: room {room} joins {joins}/256 entries {entries}/16384 objects {objects}/8192")
    return [("INFO", line) for line in lines]


def await_report(server, report):
    """Waits for a report of exactly these lines in sequence."""
    def is_there():
        notices = server.notices()
        return any(notices[place : place + len(report)] == report for place in range(len(notices)))
    wait_until(report[0][1], is_there)
