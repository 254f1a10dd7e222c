"""Full disks, and files whose writes and syncs fail."""

import errno
import http.client
import os
import pathlib
import subprocess
import unittest

from lib import serving
from lib.keeping import (
    FileLibrary, KeepingServer, expect_kept, expect_not_kept, mounted, path_of, room_folder, whole_lines,
)
from lib.observing import wait_until
from lib.records import compact
from lib.websocket_client import SECONDS, Fault
JOIN = '["join","r"]'
NOT_SERVED = '["no",0,21,"not-served"]'
# The attributes of a large put, and the number of such puts that fill the small disk at the latest.
LARGE, MOST = [[f"key-{number}", "x" * 256] for number in range(16)], 40


# ---- a full disk


def put(seq):
    """Returns a large put of a site that is alone."""
    return compact(["put", seq, [[1, seq - 1]], [1, 1], [], LARGE])


def health_of(server):
    """Returns the status and the body of the answer to a probe."""
    connection = http.client.HTTPConnection(*server.address, timeout=SECONDS)
    connection.request("GET", "/health")
    answer = connection.getresponse()
    return answer.status, answer.read()


def wait_until_kept(server):
    """Waits until a probe hears that all rooms are kept."""
    wait_until("all rooms are kept", lambda: health_of(server) == (200, b"ok\n"))


class TestFullDisk(unittest.TestCase):
    time_limit = 600

    def test_full_disk(self):
        """While the disk is full, the server closes the sessions whose replies it cannot keep, and lets no new site
        into the room. A probe hears which room it is, and other rooms go on. Once there is space, the server tries
        again by itself, with all entries. Visitors that waited have used up no join. The log has one line at the begin
        and one at the end."""
        with mounted("size=64k") as folder:
            ballast = pathlib.Path(folder) / "ballast"
            ballast.write_bytes(b"x" * 16384)
            with KeepingServer(folder, ["r", "s"], sessions=24, workers=4) as server:
                other = server.client()
                other.expect_reply('["join","s"]', '["joined",0,1]')
                self.assertEqual(health_of(server), (200, b"ok\n"), "the health")
                made = self.fill_disk(server)
                self.assertEqual(health_of(server), (503, b"room r is not kept\n"), "the health")
                visitors = [server.client() for _ in range(20)]
                for visitor in visitors * 3:
                    visitor.expect_reply(JOIN, NOT_SERVED)
                other.expect_reply('["pull",0]', '["entries",1,0,[["join",1]]]')
                expect_not_kept(server.client(), '["back","r",1]')
                other.expect_reply('["list",0]', '["objects",1,0,0,[]]')
                ballast.unlink()
                wait_until_kept(server)
                client = server.client()
                client.expect_reply('["back","r",1]', compact(["back", made + 1, 1, made]))
                client.expect_reply(put(made + 1), compact(["taken", made + 1, [[]]]))
                for number, visitor in enumerate(visitors, 2):
                    visitor.expect_reply(JOIN, compact(["joined", made + number, number]))
                records = server.finish()
                self.assertEqual(server.other_notices, [
                    ("ERROR", f"{folder}/r.record is not kept: No space left on device (os error 28)"),
                    ("INFO", f"{folder}/r.record is kept again"),
                ], "the notices")
                self.assertEqual(whole_lines(folder, "r"), records["r"], "the file")

    def fill_disk(self, server):
        """A client sends puts until the disk is full. Returns the number of accepted operations."""
        client = server.client()
        client.expect_reply(JOIN, '["joined",0,1]')
        client.expect_reply('["new",1,[],"rect",[]]', '["made",1,[1,1]]')
        for seq in range(2, MOST):
            try:
                client.ask(put(seq))
            except Fault:
                client.transcript.hung_up = True
                client.expect_end()
                return seq
        self.fail("the disk is not full")

    def test_full_to_the_end(self):
        """A server whose disk stays full reports that at its end. The file has all confirmed entries."""
        with mounted("size=64k") as folder:
            with KeepingServer(folder, sessions=1) as server:
                self.fill_disk(server)
                server.expect_exit(3, "grace: room not kept")
                self.assertEqual(len(server.error_lines()), 2, "the number of other lines")
                transcripts = server.transcripts()
            expect_kept(folder, ["r"], transcripts)

    def test_full_at_the_start(self):
        """A server starts even if the disk has no space to complete a line, and serves the stored entries."""
        with mounted("size=64k") as folder:
            # The server waits for a second session, so that it does not end by itself before it is killed.
            with KeepingServer(folder, sessions=2) as server:
                made = self.fill_disk(server)
                server.kill()
            torn = path_of(folder, "r").stat().st_size
            with KeepingServer(folder) as server:
                client = server.client()
                reply = client.reply_to('["back","r",1]')
                self.assertIn(reply[3], (made - 1, made), f"{made} operations were accepted, but the reply is {reply}")
                self.assertLessEqual(path_of(folder, "r").stat().st_size, torn, "the file grew")


# ---- each call


class FailingLibrary(FileLibrary):
    """A library that makes file calls fail, and the environment that selects the failing call by its number."""

    def __init__(self, failure, *words):
        super().__init__()
        self.settings = {"FAILURE": str(failure), **{word: "1" for word in words}}
        self.room_recovers = failure == errno.ENOSPC and not words

    def at(self, number):
        """Returns the environment in which the call of this number fails."""
        return self.variables(FAILED=number, **self.settings)


def operations(site):
    """Returns the operations of a site that is alone."""
    return [
        ["new", 1, [], "rect", [["x", 0]]],
        ["put", 2, [[site, 1]], [site, 1], [], [["x", 5]]],
        ["put", 3, [[site, 2]], [site, 1], [], [["y", 7]]],
    ]


def draw_all(client, site=None):
    """A client joins, or comes back as a site, and sends the operations that the site has not made yet. Returns whether
    it got all replies."""
    try:
        reply = client.reply_to(["join", "r"] if site is None else ["back", "r", site])
        for operation in operations(reply[2])[reply[3] if reply[0] == "back" else 0 :]:
            client.reply_to(operation)
            client.reply_to(["show", [reply[2], 1]])
        return True
    except Fault:
        client.transcript.hung_up = True
        client.expect_end()
        return False


class TestFailingCalls(unittest.TestCase):
    time_limit = 600

    def test_each_call_fails(self):
        """Each call on a file fails in a run of its own. After a restart the room has every entry that a reply
        confirmed. If only the disk was full for a moment, the room continues; otherwise it has stopped."""
        for name, failure, *words in [
            ("permanently", errno.EIO, "LASTS"),
            ("once", errno.EIO),
            ("once, after half of its bytes", errno.EIO, "SHORT"),
            ("with a quota that is used up, once", errno.EDQUOT),
            ("with a file that is too large, once", errno.EFBIG),
            ("with a full disk, once", errno.ENOSPC),
            ("with a full disk, permanently, after half of its bytes", errno.ENOSPC, "LASTS", "SHORT"),
        ]:
            with self.subTest(name):
                failer = FailingLibrary(failure, *words)
                number = 1
                while self.reaches_call(failer, number):
                    number += 1
                # The start makes two calls, and each of four entries two.
                self.assertEqual(number - 1, 10, "the calls")

    def reaches_call(self, failer, number):
        """Runs a server with this call failing. Returns whether the run reached the call."""
        with room_folder() as folder:
            if number <= 2:
                self.expect_failed_start(failer, number, folder)
                return True
            with KeepingServer(folder, sessions=2, variables=failer.at(number)) as server:
                if draw_all(server.client()):
                    return False
                site = server.clients[0].transcript.site
                if failer.room_recovers:
                    wait_until_kept(server)
                    self.assertTrue(draw_all(server.client(), site), "whether the room continues")
                    server.clients[1].close()
                    server.output()
                    self.assertEqual(server.process.returncode, 0, "the status")
                else:
                    client = server.client()
                    if site is None:
                        client.expect_reply(JOIN, NOT_SERVED)
                        client.close()
                    else:
                        expect_not_kept(client, compact(["back", "r", site]))
                    server.expect_exit(3, "grace: room not kept")
                transcripts = server.transcripts()
            expect_kept(folder, ["r"], transcripts)
            with KeepingServer(folder, before=transcripts) as server:
                draw_all(server.client(), site)
            return True

    def expect_failed_start(self, failer, number, folder):
        """Expects that the server does not start if the room's file cannot be synced, and that the next start
        succeeds."""
        words = [serving.program(), "serve", "--keep", folder, "127.0.0.1:0", "1", "1", "r"]
        done = subprocess.run(
            words, env={**os.environ, **failer.at(number)}, capture_output=True, text=True, timeout=SECONDS,
        )
        last = done.stderr.splitlines()[-1:]
        self.assertEqual((done.returncode, done.stdout, last), (3, "", [f"grace: cannot keep: {folder}"]), "the end")
        with KeepingServer(folder) as server:
            server.client().expect_reply(JOIN, '["joined",0,1]')

    def test_short_writes(self):
        """After a partial write the server writes the rest."""
        failer = FailingLibrary(0)
        for number in range(1, 11):
            with room_folder() as folder, KeepingServer(folder, sessions=1, variables=failer.at(number)) as server:
                self.assertTrue(draw_all(server.client()), "whether there are all replies")
                server.clients[0].close()
                server.output()
                self.assertEqual(server.process.returncode, 0, "the status")
                expect_kept(folder, ["r"], server.transcripts())
