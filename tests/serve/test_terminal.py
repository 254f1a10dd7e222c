"""The terminal client in Python, run as a command."""

import subprocess
import sys
import unittest

from lib.checks import check
from lib.records import compact
from lib.serving import ROOT, Server, free_address
from lib.websocket_client import SECONDS

CLIENT = ROOT / "clients/python/grace_client.py"
COMMANDS = (
    "the commands are show, site, new KIND [KEY VALUE].., put OBJECT VERSION KEY VALUE.. and drop OBJECT VERSION"
)


class Terminal:
    """A terminal client, with the transcript of its session."""

    def __init__(self, server, *words):
        self.transcript = server.other_client().transcript
        self.process = subprocess.Popen(
            [sys.executable, CLIENT, server.name, "r", *words],
            stdin=subprocess.PIPE, stdout=subprocess.PIPE, text=True,
        )

    def enter(self, command, *lines):
        """Enters a command and expects these lines of output."""
        self.process.stdin.write(f"{command}\n")
        self.process.stdin.flush()
        output = [self.process.stdout.readline() for _ in lines]
        check.assertEqual(output, [f"{line}\n" for line in lines], f"the output of {command}")

    def record(self, request, reply):
        """Records a request of the client and its reply."""
        self.transcript.add_request(compact(request))
        self.transcript.add_reply(compact(reply))

    def close(self):
        """Ends the input. Expects that the client closes the session."""
        self.process.stdin.close()
        check.assertEqual(self.process.wait(SECONDS), 0, "the client's status")
        check.assertEqual(self.process.stdout.read(), "", "the rest of its output")


def record_two(first, second):
    """Records the requests of two terminals that put one key at once, and their replies."""
    first.record(["join", "r"], ["joined", 0, 1])
    first.record(["new", 1, [], "rect", [["x", 0]]], ["made", 1, [1, 1]])
    second.record(["join", "r"], ["joined", 2, 2])
    first.record(["put", 2, [[1, 1]], [1, 1], [], [["x", 5]]], ["taken", 3, [[]]])
    own, both = [[2, 1]], [[1, 2], [2, 1]]
    second.record(["put", 1, [[1, 1]], [1, 1], [], [["x", 9]]], ["taken", 4, [[[1, 2]], own]])
    second.record(
        ["put", 2, both, [1, 1], own, [["fill", "red"], ["name", "große"]]],
        ["taken", 5, [[[1, 2]], [*own, [2, 2]]]],
    )
    first.record(
        ["drop", 3, [[1, 2], [2, 2]], [1, 1], [[1, 2]]], ["taken", 6, [[[1, 2], [1, 3]], [*own, [2, 2]]]],
    )


class TestTerminal(unittest.TestCase):
    def test_two_terminals(self):
        """Two clients put one key concurrently. Both show both versions, and the second continues from its own."""
        with Server(2) as server:
            first = Terminal(server)
            first.enter("new rect x 0")
            first.enter("show", "1 rect version 1 x=0")
            second = Terminal(server)
            second.enter("show", "1 rect version 1 x=0")
            first.enter("put 1 1 x 5")
            first.enter("show", "1 rect version 1 x=5")
            second.enter("put 1 1 x 9")
            second.enter("show", "1 rect version 1 x=5", "1 rect version 2 x=9")
            second.enter("put 1 2 fill red name große")
            second.enter("put 2 1 x 1", "there is no object 2")
            second.enter("put 0 1 x 1", "there is no object 0")
            second.enter("put 1 3 x 1", "there is no version 3")
            second.enter("put lake 1 x 1", "lake is no number")
            second.enter("put 1 1", COMMANDS)
            second.enter("put 1 1 x", "x has no value")
            second.enter("new rect x", "x has no value")
            second.enter("put 1 1 x 1 x 2", "a key stands twice")
            second.enter("new rect x 1 x 2", "a key stands twice")
            second.enter("put 1 1 X 1", "the key 'X' isn't 1 to 32 of a-z, 0-9 and -")
            shown = "1 rect version 1 x=5", "1 rect version 2 fill=red name=große x=9"
            second.enter("show", *shown)
            first.enter("show", *shown)
            first.enter("drop 1 1")
            first.enter("show", "1 rect version 1 gone", shown[1])
            first.enter("put 1 1 x 1", "refused: 18 gone")
            first.close()
            second.close()
            record_two(first, second)
            server.finish()

    def test_comes_back(self):
        """A client that comes back as a site continues the site's numbers. It must show an object before it can change
        it."""
        with Server(5, 5) as server:
            first = Terminal(server)
            first.enter("new rect x 0")
            first.enter("site", "1")
            second = Terminal(server)
            second.enter("show", "1 rect version 1 x=0")
            second.enter("put 1 1 x 9")
            for terminal in second, first:
                terminal.enter("show", "1 rect version 1 x=9")
            first.enter("put 1 1 x 5")
            first.close()
            third = Terminal(server, "--site", "1")
            third.enter("site", "1")
            third.enter("put 1 1 x 7", "there is no object 1")
            third.enter("new line")
            third.enter("show", "1 rect version 1 x=5", "2 line version 1")
            third.enter("put 1 1 x 7")
            for site, refusal in (
                ("1", "20 site-in-use: somebody is in"), ("3", "19 no-such-site: the room has let in no"),
            ):
                server.other_client()
                self.expect_failure(1, f"refused: {refusal}", server.name, "r", "--site", site, "--back-seconds", "1")
            third.close()
            second.close()
            first.record(["join", "r"], ["joined", 0, 1])
            first.record(["new", 1, [], "rect", [["x", 0]]], ["made", 1, [1, 1]])
            second.record(["join", "r"], ["joined", 2, 2])
            second.record(["put", 1, [[1, 1]], [1, 1], [], [["x", 9]]], ["taken", 3, [[]]])
            first.record(["put", 2, [[1, 1], [2, 1]], [1, 1], [], [["x", 5]]], ["taken", 4, [[]]])
            third.record(["back", "r", 1], ["back", 5, 1, 2])
            third.record(["new", 3, [[1, 2], [2, 1]], "line", []], ["made", 5, [1, 3]])
            third.record(["put", 4, [[1, 3], [2, 1]], [1, 1], [], [["x", 7]]], ["taken", 6, [[]]])
            server.finish()

    def expect_failure(self, status, line, *words):
        """Expects that the client exits with this status, and with this text on standard error."""
        command = [sys.executable, CLIENT, *words]
        done = subprocess.run(command, stdin=subprocess.DEVNULL, capture_output=True, text=True, timeout=SECONDS)
        self.assertEqual((done.returncode, done.stdout), (status, ""), "the end")
        self.assertIn(line, done.stderr)
        self.assertNotIn("Traceback", done.stderr)

    def test_nothing_listens(self):
        """The client reports that nothing listens."""
        self.expect_failure(1, "Connection refused", "{}:{}".format(*free_address()), "r")

    def test_no_room(self):
        """The client reports the server's refusal of a room that does not exist."""
        with Server() as server:
            transcript = server.other_client().transcript
            self.expect_failure(1, "refused: 4 no-such-room", server.name, "s")
            transcript.add_request(compact(["join", "s"]))
            transcript.add_reply(compact(["no", 0, 4, "no-such-room"]))
            server.finish()

    def test_bad_arguments(self):
        """The client exits with status 2 and names the wrong argument."""
        for name, line, *words in [
            ("without a room", "required: ROOM", "127.0.0.1:7000"),
            ("without a port", "localhost has no port", "localhost", "r"),
        ]:
            with self.subTest(name):
                self.expect_failure(2, line, *words)
