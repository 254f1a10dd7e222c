"""Links of the pages."""

import unittest
import urllib.parse

from lib.pages import anchors_of, links_of, pages
from lib.serving import ROOT


def fault_of(file, target):
    """Returns what is wrong with a link of this file, or None."""
    path, _, anchor = urllib.parse.unquote(target).partition("#")
    aim = (file.parent / path).resolve() if path else file
    if not aim.exists():
        return f"{target}: there is no such file"
    if not aim.is_relative_to(ROOT):
        return f"{target}: it leaves the repository"
    if anchor and aim.suffix == ".md" and anchor not in anchors_of(aim):
        return f"{target}: there is no such heading"
    return None


class TestLinks(unittest.TestCase):
    def test_links(self):
        """Each relative link of a page leads to a file of the repository, and its anchor to a heading."""
        for file in pages():
            with self.subTest(str(file.relative_to(ROOT))):
                targets = [target for target in links_of(file) if not urllib.parse.urlsplit(target).scheme]
                faults = [fault for fault in (fault_of(file, target) for target in targets) if fault]
                self.assertEqual(faults, [])
