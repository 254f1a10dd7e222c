"""The contents of a folder when a server starts, and what the server makes of them."""

import os
import subprocess
import unittest

from lib.keeping import (
    KeepingServer, bytes_of, room_folder, mounted, expect_no_start, path_of, whole_lines,
)
from lib.serving import IN_MEMORY, Server, run
LINES = [
    '["join",1]',
    '["new",[1,1],[],"rect",[["x",0],["name","große"]]]',
    '["join",2]',
    '["put",[1,2],[[1,1]],[1,1],[],[["x",5]]]',
    '["put",[2,1],[[1,1]],[1,1],[],[["x",9]]]',
    '["drop",[2,2],[[1,2],[2,1]],[1,1],[[1,2]]]',
]
RECORD = "".join(f"{line}\n" for line in LINES).encode()
SHOWN = '["versions",6,[1,1],"rect",[[[[1,2],[2,2]],"gone"],[[[2,1]],[["name","große"],["x",9]]]]]'
# Lines that are not entries, or not legal entries at their places.
INVALID_LINES = [b"x", b"", b"\0" * 40, b'["join",1]', b'["join",200]', b'["new",[9,1],[],"rect",[]]', b"\xff"]


def tail_notice(folder, room, count):
    """Returns the notice about the incomplete end of a file that the server cut off."""
    return "WARN", f"{folder}/{room}.record: {count} bytes of a line that was not written to its end"


def entries_notice(folder, room, count):
    """Returns the notice about the entries of a file."""
    return "INFO", f"{folder}/{room}.record: {count} entries"


def bad_record(folder, room, number):
    """Returns the message about a bad record."""
    return (
        f"grace: bad record: {folder}/{room}.record line {number}; after a loss of power all that clients were told"
        f" stands before it: keep a copy, and then the lines before {number} alone"
    )


# ---- how a room starts


class TestStart(unittest.TestCase):
    time_limit = 600

    def test_existing_record(self):
        """A room starts with the record in its file, and its sites can come back."""
        with room_folder({"r": RECORD}) as folder:
            with KeepingServer(folder, sessions=3) as server:
                client = server.client()
                client.expect_reply('["back","r",2]', '["back",6,2,2]')
                client.expect_reply('["show",[1,1]]', SHOWN)
                put = '["put",3,[[1,2],[2,2]],[1,1],[[2,1]],[["x",1]]]'
                client.expect_reply(put, '["taken",6,[[[1,2],[2,2]],[[2,1],[2,3]]]]')
                self.assertEqual(len(whole_lines(folder, "r")), 7, "the file")
                other = server.client()
                other.expect_reply('["join","r"]', '["joined",7,3]')
                other.expect_reply('["back","r",1]', '["no",0,3,"already-joined"]')
                self.assertEqual(whole_lines(folder, "r")[7:], ['["join",3]'], "the file")
                server.client().expect_reply('["back","r",4]', '["no",8,19,"no-such-site"]')
                for client in server.clients:
                    client.close()
                lines = server.output()
                self.assertEqual(server.process.returncode, 0, "the status")
                self.assertEqual(server.warnings(), {}, "the warnings")
                self.assertEqual(server.other_notices, [entries_notice(folder, "r", 6)], "the notices")
            self.assertEqual(lines, ["room r 8", *whole_lines(folder, "r")], "the output")
            self.assertEqual(bytes_of(folder, "r")[: len(RECORD)], RECORD, "the start of the file")

    def test_torn_at_each_byte(self):
        """A file may end at any byte. The server reads its complete lines, cuts off the rest and reports that."""
        for length in range(len(RECORD) + 1):
            torn = RECORD[:length]
            whole = torn[: torn.rfind(b"\n") + 1]
            self.expect_start_with(torn, whole)

    def test_torn_by_anything(self):
        """The server cuts off any bytes after the last complete line."""
        for tail in (b"\0", b"\0" * 5000, b"x" * 70000, b'["join",3]', b'{"', b"\xff\xfe", b"[" * 200, b"\r"):
            self.expect_start_with(RECORD + tail, RECORD)

    def expect_start_with(self, data, whole):
        """Expects that a room over a file with this data starts with the entries of the complete lines."""
        with room_folder({"r": data}) as folder:
            with KeepingServer(folder) as server:
                self.assertEqual(bytes_of(folder, "r"), whole, "the file")
                server.kill()
                server.warnings()
                notices = [entries_notice(folder, "r", whole.count(b"\n"))] if whole else []
                if data != whole:
                    notices.append(tail_notice(folder, "r", len(data) - len(whole)))
                self.assertEqual(server.other_notices, notices, "the notices")

    def test_old_forms(self):
        """The server reads a record in an old form and leaves it unchanged."""
        old = RECORD.replace(b'["put",[1,2],[[1,1]],[1,1],[],[["x",5]]]', b'["set",[1,2],[[1,1]],[1,1],[],"x",5]')
        with room_folder({"r": old}) as folder, KeepingServer(folder) as server:
            client = server.client()
            client.expect_reply('["back","r",1]', '["back",6,1,2]')
            client.expect_reply('["show",[1,1]]', SHOWN)
            self.assertEqual(bytes_of(folder, "r"), old, "the file")

    def test_other_rooms(self):
        """A new room starts empty. The server does not touch the file of a room that it does not serve, whatever its
        contents."""
        with room_folder({"r": RECORD, "left-out": b"[no record"}) as folder:
            (folder_file := path_of(folder, "r").with_name("notes.txt")).write_text("mine")
            before = path_of(folder, "left-out").stat()
            with KeepingServer(folder, ["s", "r"], sessions=1) as server:
                client = server.client()
                client.expect_reply('["join","s"]', '["joined",0,1]')
                client.expect_reply('["leave"]', '["left",1]')
                client.expect_reply('["back","r",1]', '["back",6,1,2]')
                client.close()
                self.assertEqual(server.output(), ["room s 1", '["join",1]', "room r 6", *LINES], "the output")
            self.assertEqual(
                sorted(os.listdir(folder)), ["left-out.record", "notes.txt", "r.record", "s.record"], "the files",
            )
            after = path_of(folder, "left-out").stat()
            self.assertEqual(
                (after.st_mtime_ns, after.st_ino), (before.st_mtime_ns, before.st_ino), "the file of the other room",
            )
            self.assertEqual(folder_file.read_text(), "mine", "the file that is not a room's")
            with KeepingServer(folder, ["s"]) as server:
                server.client().expect_reply('["back","s",1]', '["back",1,1,0]')

    def test_copied_meanwhile(self):
        """A copy of a file, made while its server runs, starts a room in another folder."""
        with room_folder() as folder, KeepingServer(folder, sessions=1) as server:
            client = server.client()
            client.expect_reply('["join","r"]', '["joined",0,1]')
            client.expect_reply('["new",1,[],"rect",[]]', '["made",1,[1,1]]')
            copy = bytes_of(folder, "r") + b'["new",[1,2'
            with room_folder({"r": copy}) as other, KeepingServer(other, sessions=1) as second:
                second.client().expect_reply('["back","r",1]', '["back",2,1,1]')


# ---- what prevents a start


class TestNoStart(unittest.TestCase):
    time_limit = 600

    def test_bad_at_each_line(self):
        """A line that is not an entry, or not legal at its place, prevents the start. The message has its number, and
        the file is unchanged."""
        for place in range(len(LINES)):
            for invalid_line in INVALID_LINES:
                data = b"\n".join([*RECORD.split(b"\n")[:place], invalid_line, *RECORD.split(b"\n")[place + 1 :]])
                if data == RECORD:
                    continue
                self.expect_refused(place + 1, data)

    def test_holes(self):
        """A hole of zeros, which may cover line ends, prevents the start. The message has the line in which the hole
        begins."""
        for start in range(0, len(RECORD) - 40, 7):
            data = RECORD[:start] + b"\0" * 30 + RECORD[start + 30 :]
            self.expect_refused(data[:start].count(b"\n") + 1, data)

    def expect_refused(self, number, data):
        """Expects that a server over a file with this data does not start. It changes no file, even if an earlier file
        ends incompletely, and creates none. With only the lines before the bad one it starts."""
        with room_folder({"a": RECORD[:-3], "r": data, "z": b"bad too\n"}) as folder:
            before = {name: os.stat(os.path.join(folder, name)).st_mtime_ns for name in sorted(os.listdir(folder))}
            expect_no_start(bad_record(folder, "r", number), folder, "new", "a", "r", "z")
            after = {name: os.stat(os.path.join(folder, name)).st_mtime_ns for name in sorted(os.listdir(folder))}
            self.assertEqual(after, before, "the files")
            self.assertEqual((bytes_of(folder, "a"), bytes_of(folder, "r")), (RECORD[:-3], data), "their bytes")
            with path_of(folder, "r").open("rb") as file:
                front = b"".join(file.readlines()[: number - 1])
            path_of(folder, "r").write_bytes(front)
            with KeepingServer(folder, ["r"]) as server:
                self.assertEqual(bytes_of(folder, "r"), front, "the file")
                server.kill()

    def test_too_long(self):
        """The server does not read a file of more than 1,073,741,824 bytes."""
        with room_folder({"r": b""}) as folder:
            os.truncate(path_of(folder, "r"), (1 << 30) + 1)
            messages = expect_no_start(f"grace: cannot keep: {folder}", folder, "r")
            messages = [line.partition(" ")[2] for line in messages]
            self.assertEqual(messages, [f"ERROR {folder}/r.record: it has more than 1073741824 bytes"], "the notices")

    def test_no_folder(self):
        """The server does not start if the folder is not one, or if it cannot open a file in it."""
        with room_folder({"r": RECORD}) as folder:
            for name in (f"{folder}/none", f"{folder}/r.record", f"{folder}/r.record/", "", f"{folder}/none/deep"):
                expect_no_start(f"grace: cannot keep: {name}", name, "r")
            os.mkfifo(f"{folder}/pipe")
            expect_no_start(f"grace: cannot keep: {folder}/pipe", f"{folder}/pipe", "r")
            self.assertEqual(bytes_of(folder, "r"), RECORD, "the file")

    def test_no_file(self):
        """The server does not start if a room's file is a folder or a pipe. It leaves the other files unchanged."""
        with room_folder({"a": RECORD[:-3]}) as folder:
            os.mkdir(path_of(folder, "r"))
            os.mkfifo(path_of(folder, "s"))
            for room in ("r", "s"):
                messages = expect_no_start(f"grace: cannot keep: {folder}", folder, "a", room)
                self.assertIn(f"{folder}/{room}.record: ", "\n".join(messages))
            self.assertEqual(bytes_of(folder, "a"), RECORD[:-3], "the other file")

    def test_read_only(self):
        """The server does not start over a read-only folder."""
        with mounted("size=64k") as folder:
            path_of(folder, "r").write_bytes(RECORD)
            subprocess.run(["mount", "-o", "remount,ro", folder], check=True)
            expect_no_start(f"grace: cannot keep: {folder}", folder, "r")
            expect_no_start(f"grace: cannot keep: {folder}", folder, "new")
            self.assertEqual(bytes_of(folder, "r"), RECORD, "the file")

    def test_in_order(self):
        """The server reports mistakes of the command line and of names first, then those of the folder, then those of
        the address."""
        with room_folder({"r": b"bad\n"}) as folder:
            none = f"{folder}/none"
            expect_no_start("grace: bad room name", none, "R", status=2)
            expect_no_start("grace: room named twice", none, "r", "r", status=2)
            expect_no_start("grace: bad room name", folder, "r", "R", status=2)
            expect_no_start("grace: room named twice", folder, "r", "s", "r", status=2)
            expect_no_start(f"grace: cannot keep: {none}", none, "r", address="nowhere")
            expect_no_start(bad_record(folder, "r", 1), folder, "r", address="nowhere")
            expect_no_start("grace: cannot listen: invalid socket address", folder, "s", address="nowhere")


# ---- two servers


class TestTwoServers(unittest.TestCase):
    time_limit = 600

    def test_two_servers(self):
        """Only one server at a time can use a folder. When it is killed, another can at once."""
        with room_folder() as folder:
            with KeepingServer(folder, ["r"]) as server:
                server.client().expect_reply('["join","r"]', '["joined",0,1]')
                for rooms in ("r", "s"):
                    expect_no_start(f"grace: kept by another: {folder}", folder, rooms)
                link = f"{folder}-link"
                os.symlink(folder, link)
                try:
                    expect_no_start(f"grace: kept by another: {link}", link, "r")
                finally:
                    os.unlink(link)
                server.client().expect_reply('["join","r"]', '["joined",1,2]')
                server.kill()
            with KeepingServer(folder, ["r"]) as server:
                server.client().expect_reply('["back","r",2]', '["back",2,2,0]')

    def test_in_memory(self):
        """Without a folder the server warns that rooms are in memory only, and writes no file."""
        with Server(1) as server:
            server.client().expect_reply('["join","r"]', '["joined",0,1]')
            server.finish()
            messages = [line.partition(" ")[2] for line in server.error_text().splitlines()]
            self.assertEqual(messages, [" ".join(IN_MEMORY)], "the notices")

    def test_without_a_folder(self):
        """`--keep` needs an argument."""
        status, output, errors = run("serve", "127.0.0.1:0", 1, 1, "r", "--keep")
        self.assertEqual((status, output, errors.startswith("error: ")), (2, "", True), "the end")
