"""The example session of README.md."""

import re
import shlex
import textwrap
import unittest

from lib.scripts import expect_answers
from lib.serving import ROOT, has_program


class TestReadme(unittest.TestCase):
    def test_session_of_readme(self):
        """The example session of README.md prints the lines below it."""
        if not has_program():
            self.skipTest("no program is built, and GRACE names none")
        text = (ROOT / "README.md").read_text()
        found = re.search(r"\n((?:    .*\n)+)\nIt prints:\n\n((?:    .*\n)+)", text)
        self.assertTrue(found, "README.md has no session with its output")
        words = shlex.split(found[1].replace("\\\n", " "))
        self.assertEqual((words[:2], words[-4:]), (["printf", r"%s\n"], ["|", "./grace", "script", "r"]), "the command")
        expect_answers(["r"], words[2:-4], textwrap.dedent(found[2]).splitlines())
