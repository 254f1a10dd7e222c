"""`examples/operations/grace-until-term`: a signal ends the program in order."""

import shutil
import signal
import subprocess
import time
import unittest

from lib.serving import ROOT, Server
from lib.websocket_client import SECONDS

WRAPPER = ROOT / "examples" / "operations" / "grace-until-term"
JOIN = '["join","r"]'
SHELLS = "dash", "bash"


class TestUntilTerm(unittest.TestCase):
    def words_of(self, shell):
        """Returns the words that run the wrapper in this shell."""
        if not shutil.which(shell):
            self.skipTest(f"needs {shell}")
        return [shell, str(WRAPPER)]

    def signals(self, shell, *numbers):
        """Serves a client, and sends the wrapper these signals. Expects an end in order."""
        with Server(0, 1, until_input_ends=True, wrapper=self.words_of(shell)) as server:
            client = server.client()
            client.expect_reply(JOIN, '["joined",0,1]')
            for number in numbers:
                server.process.send_signal(number)
                time.sleep(0.2)
            client.await_away()
            server.check_output()

    def test_signal(self):
        """SIGTERM and SIGINT close the session, and the program ends with 0."""
        for shell in SHELLS:
            with self.subTest(shell):
                self.signals(shell, signal.SIGTERM)
                self.signals(shell, signal.SIGINT)

    def test_second_signal(self):
        """A second signal changes nothing."""
        for shell in SHELLS:
            with self.subTest(shell):
                self.signals(shell, signal.SIGTERM, signal.SIGTERM)
                self.signals(shell, signal.SIGINT, signal.SIGTERM, signal.SIGINT)

    def test_killed(self):
        """If the wrapper is killed, the program ends in order."""
        for shell in SHELLS:
            with self.subTest(shell), Server(0, 1, until_input_ends=True, wrapper=self.words_of(shell)) as server:
                client = server.client()
                client.expect_reply(JOIN, '["joined",0,1]')
                server.process.kill()
                client.await_away()
                lines = server.output()
                self.assertEqual(lines, ["room r 1", '["join",1]'], "the output")

    def test_own_end(self):
        """A program that ends by itself gives its status, also one that a signal ended."""
        for shell in SHELLS:
            with self.subTest(shell):
                self.check_own_end(shell)

    def check_own_end(self, shell):
        """Expects the status of each end of a program in this shell."""
        with Server(1, 1, until_input_ends=True, wrapper=self.words_of(shell)) as server:
            server.client().expect_reply(JOIN, '["joined",0,1]')
            server.finish()
        for script, status in (("exit 7", 7), ("kill -9 $$", 137)):
            run = subprocess.run(
                [*self.words_of(shell), "sh", "-c", script], stdin=subprocess.DEVNULL, stderr=subprocess.DEVNULL,
                timeout=SECONDS,
            )
            self.assertEqual(run.returncode, status, f"the status of {script}")
