"""The command line of `grace serve`, the checker of its records, and `grace watch`."""

import re
import signal
import socket
import subprocess
import tempfile
import time
import unittest

from lib import serving
from lib.drawing import Drawer, draw_alone, draw_in_rounds
from lib.records import transcript_lines
from lib.crowd import Crowd
from lib.serving import Client, Server, free_address, run, verdict
from lib.websocket_client import SECONDS, Ended


# ---- the command line

ANYWHERE = "127.0.0.1:0"
NAMES = [
    ("a bad one", "bad room name", ANYWHERE, 1, 1, "r", "Room"),
    ("an empty one", "bad room name", ANYWHERE, 1, 1, ""),
    ("a bad one before a repeated one", "bad room name", ANYWHERE, 1, 1, "r", "r", "Room"),
    ("a bad one before an address", "bad room name", "nowhere", 1, 1, "Room"),
    ("a repeated one", "room named twice", ANYWHERE, 1, 1, "r", "s", "r"),
    ("a repeated one before an address", "room named twice", "nowhere", 1, 1, "r", "r"),
]
ADDRESSES = [
    ("none", "invalid socket address", "nowhere"),
    ("an invalid port", "invalid port value", "127.0.0.1:65536"),
    ("another machine's", "Cannot assign requested address (os error 99)", "192.0.2.1:0"),
]
BAD_COMMAND_LINES = [
    ("100,001 sessions", ANYWHERE, 100001, 1, "r"),
    ("a number of sessions that is not a number", ANYWHERE, "many", 1, "r"),
    ("65 workers", ANYWHERE, 1, 65, "r"),
    ("no room", ANYWHERE, 1, 1),
    ("no client", ANYWHERE, 1, 1, "r", "--clients", 0),
    ("100,001 clients", ANYWHERE, 1, 1, "r", "--clients", 100001),
    ("seconds that are not a number", ANYWHERE, 1, 1, "r", "--idle", "long"),
    ("an unknown option", ANYWHERE, 1, 1, "r", "--quiet"),
]


def close_one_session(address):
    """Opens a session and closes it, if something listens."""
    try:
        client = Client(address, 1)
    except ConnectionError:
        return
    try:
        client.open()
        client.close()
    except Ended:
        pass
    finally:
        client.socket.close()


class TestCommandLine(unittest.TestCase):
    def expect_exit(self, line, status, *words):
        """Expects that the program prints nothing and exits with this status and this line on standard error."""
        self.assertEqual(run("serve", *words), (status, "", f"{line}\n"), "the end")

    def test_room_name(self):
        """The program checks the room names before everything else."""
        for name, line, *words in NAMES:
            with self.subTest(name):
                self.expect_exit(f"grace: {line}", 2, *words)

    def test_address(self):
        """The program reports an address that it cannot use."""
        for name, line, address in ADDRESSES:
            with self.subTest(name):
                self.expect_exit(f"grace: cannot listen: {line}", 3, address, 1, 1, "r")

    def test_bad_command_line(self):
        """The program reports the mistake and exits with status 2."""
        for name, *words in BAD_COMMAND_LINES:
            with self.subTest(name):
                status, output, errors = run("serve", *words)
                self.assertEqual((status, output), (2, ""), "the end")
                self.assertRegex(errors, "^(?!grace: ).", "standard error")

    def test_taken_address(self):
        """The program cannot use an address on which another one listens."""
        with socket.socket() as other:
            other.bind(("127.0.0.1", 0))
            other.listen()
            line = "grace: cannot listen: Address already in use (os error 98)"
            self.expect_exit(line, 3, "{}:{}".format(*other.getsockname()), 1, 1, "r")

    def test_output_is_full(self):
        """If the program cannot write its output, it reports that and exits with 3, at the start or at the end."""
        address = free_address()
        with open("/dev/full", "wb") as full, tempfile.TemporaryFile("w+") as errors:
            words = [serving.program(), "serve", "{}:{}".format(*address), "1", "1", "r"]
            process = subprocess.Popen(words, stdin=subprocess.DEVNULL, stdout=full, stderr=errors)
            try:
                bound = time.monotonic() + SECONDS
                while process.poll() is None and time.monotonic() < bound:
                    close_one_session(address)
                    time.sleep(0.1)
                self.assertEqual(process.poll(), 3, "the status")
            finally:
                process.kill()
                process.wait()
            errors.seek(0)
            self.assertEqual(errors.read().splitlines()[-1], "grace: output failed", "the last line on standard error")

    def test_interrupted(self):
        """SIGINT ends the program by its default action. It prints no record."""
        with Server(2, 1) as server:
            server.client().expect_reply(["join", "r"], '["joined",0,1]')
            server.process.send_signal(signal.SIGINT)
            self.assertEqual(server.output(), [], "the lines after the first")
            self.assertEqual(server.process.returncode, -signal.SIGINT, "the status")


# ---- the checker of records and transcripts


def with_last_number_raised(line):
    """Returns the line with its last number raised by one."""
    found = list(re.finditer(r"\d+", line))[-1]
    return line[: found.start()] + str(int(found[0]) + 1) + line[found.end() :]


class TestChecker(unittest.TestCase):
    def draw_room(self, clients, count):
        """Clients draw in parallel, each this many operations. Returns the record and the transcript."""
        with Server(clients, clients) as server:
            drawers = [Drawer(server.client().ask, number) for number in range(clients)]
            crowd = Crowd()
            for drawer in drawers:
                drawer.join("r")
                crowd.start(self.draw_all, drawer, count)
            crowd.end()
            for client in server.clients:
                client.ask(["leave"])
            record = server.finish()["r"]
        return record, transcript_lines("r", [client.transcript for client in server.clients])

    def draw_all(self, drawer, count):
        """Draws with one client."""
        self.assertTrue(draw_alone(drawer, count), f"the room refused most operations of site {drawer.site}")

    def test_true_transcript(self):
        """The checker accepts the record and the transcript of a busy room. `Server.finish` runs it."""
        record, _ = self.draw_room(5, 60)
        self.assertEqual(len(record), 5 + 5 * 60, "the entries")

    def test_changed_numbers(self):
        """The checker rejects a change of one number in any line. The test skips the number of a reply to leave, which
        may also be true of a later time."""
        record, transcript = self.draw_room(3, 6)
        for lines in (record, transcript):
            for place, line in enumerate(lines):
                if '["left",' in line:
                    continue
                lines[place] = with_last_number_raised(line)
                status, output = verdict(record, transcript)
                change = f"{line} changed to {lines[place]}"
                self.assertRegex(output, r"\A(bad record|bad transcript|wrong reply) line \d+\n\Z", change)
                self.assertEqual(status, 1, change)
                lines[place] = line


# ---- `grace watch`


class TestWatch(unittest.TestCase):
    def test_watched(self):
        """`grace watch` prints each object of a live room with 300 operations by five clients, as `show` returns it."""
        with Server(6, 6) as server:
            clients = [server.client() for _ in range(5)]
            drawers = [Drawer(client.ask, number) for number, client in enumerate(clients)]
            for drawer in drawers:
                drawer.join("r")
            draw_in_rounds(drawers, 300)
            drawers[0].catch_up()
            server.other_client().joined("r", drawers[0].entry_count, 6)
            status, output, errors = run("watch", server.name, "r")
            self.assertEqual((status, errors), (0, ""), "the watcher's end")
            shown = [clients[0].ask(["show", target]) for target in drawers[0].objects]
            self.assertEqual(len(output.splitlines()), len(shown), "the number of objects")
            for line, reply in zip(output.splitlines(), shown):
                self.assertEqual(line, reply, "an object")
            server.finish()

    def test_nothing_listens(self):
        """`grace watch` reports that nothing listens."""
        name = "{}:{}".format(*free_address())
        line = "grace: cannot connect: Connection refused (os error 111)\n"
        self.assertEqual(run("watch", name, "r"), (3, "", line), "the end")
