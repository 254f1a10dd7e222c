"""What checkers find in the scripts of shell and of Python, where they are installed."""

import shutil
import subprocess
import unittest

from lib.serving import ROOT

# Two warnings of shellcheck are not for these scripts: word splitting is meant in some places, and `$name[` begins a
# class of characters in a regular expression.
NOT_FOR_US = "SC2046,SC1087"
# Folders without sources of ours.
LEFT_OUT = {".git", "out", "node_modules", "__pycache__", "rooms"}
# Debian's name of the command, and the other one.
PYFLAKES = shutil.which("pyflakes3") or shutil.which("pyflakes")


def files(folder=ROOT):
    """Yields the files of the repository."""
    for path in sorted(folder.iterdir()):
        if path.is_dir() and not path.is_symlink() and path.name not in LEFT_OUT and folder.name != "crates":
            yield from files(path)
        elif path.is_file():
            yield path


def first_line_of(path):
    """Returns the first line of a file that can be run, and nothing of others."""
    if not path.stat().st_mode & 0o100:
        return ""
    with path.open("rb") as file:
        return file.readline().decode("utf-8", "replace")


def shell_scripts():
    """Returns the paths of the scripts of shell."""
    return [path for path in files() if first_line_of(path).rstrip().endswith(("/sh", "bash"))]


def python_files():
    """Returns the paths of the files of Python, with and without an ending."""
    return [path for path in files() if path.suffix == ".py" or "python3" in first_line_of(path)]


class TestLints(unittest.TestCase):
    def expect_clean(self, command):
        """Expects that a checker ends well, and finds nothing."""
        done = subprocess.run(command, cwd=ROOT, stdout=subprocess.PIPE, stderr=subprocess.STDOUT, text=True)
        self.assertEqual((done.returncode, done.stdout), (0, ""))

    @unittest.skipUnless(shutil.which("shellcheck"), "shellcheck is not installed")
    def test_shell(self):
        """`shellcheck` has no warning of a script of shell."""
        options = ["--external-sources", "--source-path=SCRIPTDIR", "--severity=warning", "--format=gcc"]
        self.expect_clean(["shellcheck", *options, f"--exclude={NOT_FOR_US}", *shell_scripts()])

    @unittest.skipUnless(PYFLAKES, "pyflakes3 is not installed")
    def test_python(self):
        """`pyflakes` finds nothing in a file of Python."""
        self.expect_clean([PYFLAKES, *python_files()])
