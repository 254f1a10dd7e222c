"""Servers that keep their rooms in a folder, and the files in it."""

import contextlib
import pathlib
import shutil
import signal
import subprocess
import tempfile
import unittest

from lib.checks import check
from lib.records import compare_record, split_rooms, transcript_lines
from lib.serving import ROOT, Server, run, verdict
from lib.websocket_client import CLOSE, SECONDS, closing

# The notice of the library that makes file calls fail.
NOTICE = "failed"


class KeepingServer(Server):
    """`grace serve --keep` over this folder. `before` has the transcripts of clients of earlier runs over it."""

    def __init__(self, folder, rooms=("r",), sessions=4, workers=4, before=(), variables=None, **options):
        super().__init__(sessions, workers, rooms, keep=folder, before=before, **options)
        self.variables = variables or {}

    def kill(self, by=signal.SIGKILL):
        """Ends the program by a signal. Later calls of its clients find the connection closed."""
        self.process.send_signal(by)
        check.assertEqual(self.process.wait(SECONDS), -by, "the status")
        for client in self.clients:
            client.is_over = client.transcript.hung_up = True

    def open_files(self):
        """Returns the names of the rooms' files that the program has open, in order. The lock of a chain has a file open
        too."""
        names = set()
        for link in pathlib.Path(f"/proc/{self.process.pid}/fd").iterdir():
            # It may have been closed meanwhile.
            with contextlib.suppress(FileNotFoundError):
                names.add(link.readlink().name)
        return sorted(name for name in names if name.endswith(".record"))

    def error_lines(self):
        """Returns the lines on standard error."""
        return [line for line in self.error_text().splitlines() if line != NOTICE]

    def expect_exit(self, status, line):
        """Expects that the program exits with this status and this last line on standard error."""
        self.output()
        check.assertEqual((self.process.returncode, self.error_lines()[-1:]), (status, [line]), "the end")


class OnDemandServer(KeepingServer):
    """`grace serve --rooms N --keep` over this folder, for any number of sessions. It ends when its input does."""

    def __init__(self, folder, on_demand, rooms=(), workers=2, **options):
        super().__init__(folder, rooms, 0, workers, on_demand=on_demand, until_input_ends=True, **options)

    def finish(self, warnings=None, status=0, printed=()):
        """Closes the open clients, ends the program and checks its output. It prints the rooms of the command line, and
        of those on demand only these. Each room's file has all that the transcripts report. Returns the record of each
        room that clients were in."""
        for client in self.clients:
            if not client.is_over:
                client.close()
        self.end_input()
        printed_rooms = split_rooms(self.output(), self.rooms, self.on_demand)
        check.assertEqual(self.process.returncode, status, "the status")
        check.assertEqual(self.warnings(), warnings or {}, "the warnings")
        check.assertEqual(list(printed_rooms), [*self.rooms, *printed], "the rooms that are printed")
        transcripts = self.transcripts()
        rooms = {room for transcript in transcripts for room, *_ in transcript.lines}
        expect_kept(self.keep, sorted(rooms), transcripts)
        return {room: whole_lines(self.keep, room) for room in rooms}


def build_library(name, folder):
    """Builds a library of tests/faults for LD_PRELOAD in this folder. Returns its path."""
    if not shutil.which("cc"):
        raise unittest.SkipTest("there is no C compiler")
    path = f"{folder}/{name}.so"
    subprocess.run(["cc", "-O2", "-shared", "-fPIC", "-o", path, ROOT / f"tests/faults/{name}.c"], check=True)
    return path


class FileLibrary:
    """A library for LD_PRELOAD that makes calls on rooms' files fail or slow (tests/faults/fail_file.c)."""

    def __init__(self):
        self.folder = tempfile.TemporaryDirectory()
        self.path = build_library("fail_file", self.folder.name)
        self.hold = pathlib.Path(self.folder.name) / "held"

    def variables(self, **settings):
        """Returns the environment with the library and these settings."""
        settings = {"HELD": self.hold, **settings}
        return {"LD_PRELOAD": self.path, **{name: str(value) for name, value in settings.items()}}

    @contextlib.contextmanager
    def held(self):
        """Has each sync of the file that SLOW names wait until this is left."""
        self.hold.touch()
        try:
            yield
        finally:
            self.hold.unlink()


def path_of(folder, room):
    """Returns the path of a room's file."""
    return pathlib.Path(folder) / f"{room}.record"


def bytes_of(folder, room):
    """Returns the bytes of a room's file."""
    return path_of(folder, room).read_bytes()


def whole_lines(folder, room):
    """Returns the complete lines of a room's file."""
    data = bytes_of(folder, room)
    return data[: data.rfind(b"\n") + 1].decode().split("\n")[:-1]


def expect_kept(folder, rooms, transcripts):
    """Expects that each room's file has all entries that the transcripts report. The checker must accept it with the
    transcripts."""
    for room in rooms:
        record = whole_lines(folder, room)
        compare_record(room, record, transcripts)
        result = verdict(record, transcript_lines(room, transcripts))
        check.assertEqual(result, (0, "holds\n"), f"the verdict of room {room}")


def expect_not_kept(client, request):
    """Expects that the server closes the session in place of a reply, because it cannot keep the entry."""
    client.send_request(request)
    opcode, payload = client.read_frame()
    check.assertEqual((opcode, payload[:2]), (CLOSE, closing(1011)), "the frame")
    client.transcript.hung_up = True
    client.expect_end()


def expect_no_start(line, folder, *rooms, address="127.0.0.1:0", status=3):
    """Expects that a server over this folder exits with this last line and prints nothing. Returns the other lines on
    standard error."""
    ended, output, errors = run("serve", "--keep", folder, address, 1, 1, *rooms)
    check.assertEqual((ended, output, errors.splitlines()[-1:]), (status, "", [line]), "the end")
    return errors.splitlines()[:-1]


@contextlib.contextmanager
def room_folder(files=()):
    """Creates a folder with these files, given as bytes by room."""
    with tempfile.TemporaryDirectory() as name:
        for room, data in dict(files).items():
            path_of(name, room).write_bytes(data)
        yield name


@contextlib.contextmanager
def mounted(options):
    """Mounts a file system in memory with these options. Yields its folder."""
    with tempfile.TemporaryDirectory() as name:
        mount = ["mount", "-t", "tmpfs", "-o", options, "tmpfs", name]
        done = subprocess.run(mount, capture_output=True, text=True)
        if done.returncode:
            raise unittest.SkipTest("mounting a file system is not permitted")
        try:
            yield name
        finally:
            subprocess.run(["umount", name], check=True)
