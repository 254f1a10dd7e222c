"""Standard input, output and files that give little at a time, or fail."""

import pathlib
import socket
import struct
import subprocess
import tempfile
import unittest

from lib import serving
from lib.serving import run
from lib.websocket_client import SECONDS
from lib.worked import RECORD

TRANSCRIPT = ['[1,["join","r"],["joined",0,1]]']
# Parts of a script that arrive one after another, each with the answer to the line that it ends.
PARTS = [
    ('1 ["join","r"]\n1 ["le', '1 ["joined",0,1]\n'),
    ('ave"]\n1 [', '1 ["left",1]\n'),
    (']\nno', '1 ["no",0,1,"bad-message"]\n'),
]


class Script:
    """`grace script r` over this input, or over a pipe."""

    def __init__(self, stdin=subprocess.PIPE):
        self.process = subprocess.Popen(
            [serving.program(), "script", "r"], stdin=stdin, stdout=subprocess.PIPE, stderr=subprocess.PIPE,
        )

    def __enter__(self):
        return self

    def __exit__(self, *_):
        self.process.kill()
        self.process.communicate()

    def send(self, text):
        """Sends this text."""
        self.process.stdin.write(text.encode())
        self.process.stdin.flush()

    def answer(self):
        """Waits for the next answer."""
        return self.process.stdout.readline().decode()

    def end(self):
        """Ends the input. Returns the status, the further output and the errors."""
        output, errors = self.process.communicate(timeout=SECONDS)
        return self.process.returncode, output.decode(), errors.decode()


def files(folder):
    """Writes a record and a transcript into the folder. Returns their paths and that of a folder."""
    paths = [pathlib.Path(folder) / name for name in ("record", "transcript", "folder")]
    for path, lines in zip(paths, (RECORD, TRANSCRIPT)):
        path.write_text("".join(f"{line}\n" for line in lines))
    paths[2].mkdir()
    return paths


class TestStreams(unittest.TestCase):
    def test_answers_before_the_next_read(self):
        """The program writes the answers to all lines of a read before it waits for more. A line may arrive in
        parts."""
        with Script() as script:
            for part, answer in PARTS:
                script.send(part)
                self.assertEqual(script.answer(), answer, f"the answer to {part!r}")
            self.assertEqual(script.end(), (0, "?\n", ""), "the end")

    def test_input_fails(self):
        """If the input fails, the program has answered the lines before. It reports the failure and exits with 3."""
        with socket.socket() as listener:
            listener.bind(("127.0.0.1", 0))
            listener.listen()
            sender = socket.create_connection(listener.getsockname())
            receiver, _ = listener.accept()
            with sender, receiver, Script(receiver) as script:
                sender.sendall(b'0 ["leave"]\n0')
                self.assertEqual(script.answer(), '0 ["no",0,2,"not-joined"]\n', "the answer")
                # A close without a linger resets the connection, so that the next read fails.
                sender.setsockopt(socket.SOL_SOCKET, socket.SO_LINGER, struct.pack("ii", 1, 0))
                sender.close()
                self.assertEqual(script.end(), (3, "", "grace: input failed\n"), "the end")

    def test_file_fails(self):
        """A folder can be opened, but not read. The program reports that and exits with 3."""
        for name, command, *places in [
            ("the record of a check", "check", 2, 1),
            ("the transcript of a check", "check", 0, 2),
            ("the record of a migration", "migrate", 2),
            ("the record of a renewal", "renew", 2),
            ("the old record of a comparison", "renewed", 2, 0),
            ("the new record of a comparison", "renewed", 0, 2),
        ]:
            with self.subTest(name), tempfile.TemporaryDirectory() as folder:
                paths = files(folder)
                result = run(command, *(paths[place] for place in places))
                self.assertEqual(result, (3, "", "grace: input failed\n"), "the end")

    def test_full_output(self):
        """If the program cannot write its output, it reports that and exits with 3."""
        for command, *places in [("check", 0, 1), ("migrate", 0), ("renew", 0), ("renewed", 0, 0)]:
            with self.subTest(command), tempfile.TemporaryDirectory() as folder, open("/dev/full", "wb") as full:
                paths = files(folder)
                status, _, errors = run(command, *(paths[place] for place in places), stdout=full)
                self.assertEqual((status, errors), (3, "grace: output failed\n"), "the end")

    def test_full_output_and_errors(self):
        """If the program can write neither its output nor its message, it exits with 3."""
        with open("/dev/full", "wb") as full:
            done = subprocess.run(
                [serving.program(), "script", "r"], input=b'0 ["leave"]\n', stdout=full, stderr=full, timeout=SECONDS,
            )
        self.assertEqual(done.returncode, 3, "the status")
