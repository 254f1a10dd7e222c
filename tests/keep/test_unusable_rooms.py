"""Rooms on demand whose files cannot be used, or fail. Other rooms go on."""

import errno
import os
import pathlib
import time
import unittest

from lib.keeping import (
    OnDemandServer, bytes_of, expect_kept, expect_not_kept, mounted, path_of, room_folder, whole_lines,
)
from lib.observing import wait_until
from lib.on_demand import (
    BAD_LINE, LINES, NOT_SERVED, RECORD, ask_until_served, draw_once, new, notices_of, refusals_of, wait_until_closed,
)
from lib.records import compact
from lib.websocket_client import Fault

from keep.test_faults import FailingLibrary, health_of, wait_until_kept


# ---- files that cannot be used


def make_nothing(path):
    """Puts a link to nowhere at this path."""
    path.symlink_to("nowhere")


def make_long(path):
    """Puts a file there that is too long, of zeros."""
    path.touch()
    os.truncate(path, (1 << 30) + 1)


UNUSABLE = [
    ("a bad line", lambda path: path.write_bytes(BAD_LINE), "bad record line 4"),
    ("a folder", os.mkdir, None),
    ("a pipe", os.mkfifo, None),
    ("a link to nowhere", make_nothing, "it is a link to no file, or it is removed again and again"),
    ("a link to itself", lambda path: path.symlink_to(path.name), None),
    ("a file that is too long", make_long, "it has more than 1073741824 bytes"),
]


def remove(path):
    """Removes what is there."""
    if path.is_dir() and not path.is_symlink():
        path.rmdir()
    else:
        path.unlink()


FEW_DESCRIPTORS = ["sh", "-c", 'ulimit -n 40; exec "$@"', "sh"]


class TestUnusableFiles(unittest.TestCase):
    time_limit = 600

    def test_unusable(self):
        """A room whose file cannot be used is refused by 21, and the log says why. Other rooms go on. Once the file is
        away, the room is served, soon."""
        for name, make, why in UNUSABLE:
            with self.subTest(name):
                self.check_unusable(make, why)

    def check_unusable(self, make, why):
        """Puts at a room's path what it cannot use, and then removes it."""
        with room_folder() as folder, OnDemandServer(folder, 3, rooms=("r",)) as server:
            path = path_of(folder, "a")
            make(path)
            before = path.lstat()
            client, other = server.client(), server.client()
            other.expect_reply(["join", "b"], '["joined",0,1]')
            client.expect_reply(["join", "a"], NOT_SERVED)
            client.expect_reply(["back", "a", 1], NOT_SERVED)
            self.assertEqual(refusals_of(server), {"file": 2}, "the refusals")
            other.expect_reply(new(1), '["made",1,[1,1]]')
            client.expect_reply(["join", "c"], '["joined",0,1]')
            client.expect_reply(["leave"], '["left",1]')
            after = path.lstat()
            self.assertEqual(
                (after.st_ino, after.st_size, after.st_mtime_ns),
                (before.st_ino, before.st_size, before.st_mtime_ns),
                "the file",
            )
            remove(path)
            self.assertEqual(ask_until_served(client, ["join", "a"]), '["joined",0,1]', "the reply")
            server.finish()
            level, text = notices_of(server)[0]
            self.assertEqual((level, text.partition(": ")[0]), ("ERROR", f"{folder}/a.record"), "the line")
            if why:
                self.assertEqual(text.partition(": ")[2], why, "why")

    def test_torn(self):
        """The bytes behind the last whole line are cut off when the room is opened."""
        with room_folder({"a": RECORD + b'["join",3'}) as folder, OnDemandServer(folder, 1) as server:
            client = server.client()
            client.expect_reply(["back", "a", 2], '["back",3,2,0]')
            self.assertEqual(bytes_of(folder, "a"), RECORD, "the file")
            client.close()
            server.end_input()
            self.assertEqual(server.output(), [], "the output")
            server.warnings()
            self.assertEqual(notices_of(server), [
                ("INFO", f"{folder}/a.record: 3 entries"),
                ("WARN", f"{folder}/a.record: 9 bytes of a line that was not written to its end"),
            ], "the notices")

    def test_folder_away(self):
        """Where the folder is away, open rooms go on with their files, and others are refused by 21 until it is there
        again."""
        with room_folder() as parent:
            folder, away = os.path.join(parent, "rooms"), os.path.join(parent, "away")
            os.mkdir(folder)
            with OnDemandServer(folder, 3) as server:
                client, other = server.client(), server.client()
                client.expect_reply(["join", "a"], '["joined",0,1]')
                os.rename(folder, away)
                client.expect_reply(new(1), '["made",1,[1,1]]')
                self.assertEqual(whole_lines(away, "a"), LINES[:1] + ['["new",[1,1],[],"rect",[["x",1]]]'], "the file")
                other.expect_reply(["join", "b"], NOT_SERVED)
                self.assertEqual(refusals_of(server), {"file": 1}, "the refusals")
                os.rename(away, folder)
                self.assertEqual(ask_until_served(other, ["join", "b"]), '["joined",0,1]', "the reply")
                server.finish()

    def test_no_descriptor_is_left(self):
        """Where the process has no descriptor for another room's file, the room is refused by 21. Rooms that are closed
        give theirs back."""
        with room_folder() as folder, OnDemandServer(folder, 100, close_after=1, wrapper=FEW_DESCRIPTORS) as server:
            client, staying = server.client(), server.client()
            staying.expect_reply(["join", "a"], '["joined",0,1]')
            for number in range(100):
                if client.ask(["back", f"tried-{number}", 1]) == NOT_SERVED:
                    break
            else:
                self.fail("a hundred rooms are open with 40 descriptors")
            staying.expect_reply(new(1), '["made",1,[1,1]]')
            wait_until("the rooms are closed", lambda: server.open_files() == ["a.record"])
            self.assertEqual(ask_until_served(client, ["join", "b"]), '["joined",0,1]', "the reply")
            server.finish()
            self.assertEqual(notices_of(server), [
                ("ERROR", f"{folder}/tried-{number}.record: Too many open files (os error 24)"),
            ], "the notices")


# ---- disks that fail

LARGE = [[f"key-{number}", "x" * 256] for number in range(16)]


OPERATIONS = [new(1), '["put",2,[[1,1]],[1,1],[],[["x",5]]]', '["put",3,[[1,2]],[1,1],[],[["y",7]]]']


class TestFailingDisks(unittest.TestCase):
    time_limit = 600

    def fill(self, client, room):
        """Sends large puts until the session ends in place of a reply. Returns the number of operations that were
        told."""
        client.expect_reply(["join", room], '["joined",0,1]')
        client.expect_reply(new(1), '["made",1,[1,1]]')
        for seq in range(2, 40):
            try:
                client.ask(["put", seq, [[1, seq - 1]], [1, 1], [], LARGE])
            except Fault:
                client.transcript.hung_up = True
                client.expect_end()
                return seq - 1
        self.fail("the disk is not full")

    def test_full_disk(self):
        """While the disk is full, what is not kept is not told, and the line in the log names the room. The room stays
        open though nobody is in it, since its file lacks entries. Other rooms with their files go on. Once there is
        space, all is kept, and then the room is closed."""
        with mounted("size=64k") as folder:
            ballast = pathlib.Path(folder) / "ballast"
            ballast.write_bytes(b"x" * 16384)
            with OnDemandServer(folder, 2, close_after=1) as server:
                made = self.fill(server.client(), "a")
                client = server.client()
                expect_not_kept(client, ["back", "a", 1])
                self.assertEqual(health_of(server), (503, b"room a is not kept\n"), "the health")
                client = server.client()
                client.expect_reply(["join", "a"], NOT_SERVED)
                time.sleep(2.5)
                self.assertEqual(server.open_files(), ["a.record"], "the open files")
                ballast.unlink()
                wait_until_closed(server, "a")
                client.expect_reply(["back", "a", 1], compact(["back", made + 2, 1, made + 1]))
                server.finish()
                self.assertEqual(notices_of(server)[:2], [
                    ("ERROR", f"{folder}/a.record is not kept: No space left on device (os error 28)"),
                    ("INFO", f"{folder}/a.record is kept again"),
                ], "the first notices")

    def test_full_to_the_end(self):
        """A room on demand whose file lacks entries at the end is printed, and the server says that it is not kept."""
        with mounted("size=64k") as folder:
            with OnDemandServer(folder, 2, rooms=("r",)) as server:
                client = server.client()
                draw_once(client, "b")
                made = self.fill(client, "a")
                server.end_input()
                lines = server.output()
                self.assertEqual(server.process.returncode, 3, "the status")
                self.assertEqual(server.error_lines()[-1], "grace: room not kept", "the last line")
                heads = [line for line in lines if line.startswith("room ")]
                self.assertEqual(heads, ["room r 0", f"room a {made + 2}"], "the heads")
                transcripts = server.transcripts()
            expect_kept(folder, ["a", "b"], transcripts)

    def test_each_call_fails(self):
        """Each call on a room's file fails in a run of its own, from the opening of the room on. What a reply told is
        in the file. A failed opening is refused by 21, and tried again later. After another failure than a full disk
        the room takes nothing more, stays open, and is printed at the end. Other rooms go on."""
        for name, failure, *words in [
            ("once", errno.EIO),
            ("once, after half of its bytes", errno.EIO, "SHORT"),
            ("with a full disk, once", errno.ENOSPC),
        ]:
            with self.subTest(name):
                failer, number = FailingLibrary(failure, *words), 1
                while self.reaches_call(failer, number):
                    number += 1
                # The opening makes two calls, and each of four entries two.
                self.assertEqual(number - 1, 10, "the calls")

    def reaches_call(self, failer, number):
        """Runs a server with this call failing. Returns whether the run reached the call."""
        with room_folder() as folder:
            with OnDemandServer(folder, 3, variables=failer.at(number)) as server:
                client, other = server.client(), server.client()
                is_served = self.draw_or_end(client)
                if is_served and "failed" not in server.error_text().splitlines():
                    return False
                self.assertEqual(is_served, number <= 2, "whether the session went on")
                is_stopped = not is_served and not failer.room_recovers
                if failer.room_recovers:
                    wait_until_kept(server)
                if is_stopped:
                    self.assertEqual(health_of(server), (503, b"room a is not kept\n"), "the health")
                    other.expect_reply(["join", "a"], NOT_SERVED)
                draw_once(other, "b")
                for one in server.clients:
                    one.is_over or one.close()
                server.end_input()
                heads = [line for line in server.output() if line.startswith("room ")]
                self.assertEqual(server.process.returncode, 3 if is_stopped else 0, "the status")
                self.assertEqual(
                    [head.split()[1] for head in heads], ["a"] if is_stopped else [], "the rooms that are printed",
                )
                transcripts = server.transcripts()
            expect_kept(folder, ["a", "b"], transcripts)
            with OnDemandServer(folder, 1) as server:
                server.client().expect_reply(["back", "b", 1], '["back",2,1,1]')
        return True

    def draw_or_end(self, client):
        """Joins the room as soon as it is served, and draws. Returns whether all was told, and not the session ended in
        place of a reply."""
        try:
            self.assertEqual(ask_until_served(client, ["join", "a"]), '["joined",0,1]', "the reply")
            for operation in OPERATIONS:
                client.ask(operation)
            return True
        except Fault:
            client.transcript.hung_up = True
            client.expect_end()
            return False
