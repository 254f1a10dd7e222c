"""The layers of the crates: the picture in docs/ARCHITECTURE.md is that of crates.txt."""

import functools
import unittest

from lib.serving import ROOT

PAGE = ROOT / "docs/ARCHITECTURE.md"


def crates_below():
    """Returns for each crate of the repository those of its libraries that are crates of the repository too."""
    lines = (line.partition(":") for line in (ROOT / "crates.txt").read_text().splitlines() if line.strip())
    libraries = {crate.split()[0]: words.split() for crate, _, words in lines}
    return {crate: [word for word in words if word in libraries] for crate, words in libraries.items()}


def picture_of(below):
    """Returns the layers, from the highest, as lines of a Markdown block. Each crate is one above its highest library."""

    @functools.cache
    def layer(crate):
        return 1 + max(map(layer, below[crate]), default=-1)

    crates = {}
    for crate in below:
        crates.setdefault(layer(crate), []).append(crate)
    return "\n".join(f"    {number:2}  {'  '.join(crates[number])}" for number in sorted(crates, reverse=True))


class TestLayers(unittest.TestCase):
    def test_picture(self):
        """The page has the picture of the layers, line by line."""
        picture = picture_of(crates_below())
        self.assertIn(f"\n\n{picture}\n\n", PAGE.read_text(), f"the picture is:\n{picture}")

    def test_example(self):
        """A crate is above all of its libraries, also where one of these is not on another."""
        below = {"low": [], "side": [], "middle": ["low"], "high": ["side", "middle"]}
        self.assertEqual(picture_of(below), "     2  high\n     1  middle\n     0  low  side")
