"""The edits that the prover must refuse: each can be applied to the sources as they are."""

import unittest

from lib.serving import ROOT

CRATES = ROOT / "crates"


def edit_files():
    """Returns the paths of the edits."""
    return sorted(CRATES.glob("*/edits/*.edit"))


def fault_of(edit, crate):
    """Returns why an edit's text cannot be applied to the files of a crate's folder, or None. Each text behind `old: `
    is one line, and stands in its file exactly once, after what the edit did before."""
    sources, file, old = {}, None, None
    for line in edit.splitlines():
        if line.startswith("file: "):
            file = line.removeprefix("file: ")
            sources.setdefault(file, (crate / file).read_text())
        elif line.startswith("old: "):
            old = line.removeprefix("old: ")
        elif line.startswith("new:"):
            count = sources[file].count(old)
            if count != 1:
                return f"{file} has {count} times: {old}"
            sources[file] = sources[file].replace(old, line.removeprefix("new:").removeprefix(" "))
        else:
            return f"a line that is not read: {line}"
    return None


class TestEdits(unittest.TestCase):
    def test_applied(self):
        """Each edit's old texts stand in its files, once."""
        for path in edit_files():
            with self.subTest(path.relative_to(CRATES)):
                self.assertIsNone(fault_of(path.read_text(), path.parent.parent))

    def test_faults(self):
        """A text that is not there, or stands twice, or has two lines, is a fault."""
        file = "file: journal/src/lib.rt\n"
        for edit in ("old: no such line\nnew: x\n", "old: e\nnew: x\n", "old: //! \nof two lines\nnew: x\n"):
            self.assertIsNotNone(fault_of(file + edit, CRATES), edit)
