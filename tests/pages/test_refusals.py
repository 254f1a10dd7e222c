"""The refusals: the table of docs/PROTOCOL.md, the server's source and the clients agree."""

import re
import sys
import unittest

from lib import answers
from lib.pages import source_with, table_of, tables_of
from lib.serving import ROOT


def documented_refusals():
    """Returns the code and word of each row of the table."""
    rows = table_of(ROOT / "docs/PROTOCOL.md", "Code", "Word", "Cause")
    return [(int(code), word.strip("`")) for code, word, _ in rows]


def numbered(words):
    """Returns the words with their places, from 1."""
    return list(enumerate(words, start=1))


class TestRefusals(unittest.TestCase):
    def only_match(self, file, pattern):
        """Returns the only match of the pattern in a file."""
        found = re.findall(pattern, (ROOT / file).read_text(), re.DOTALL)
        self.assertEqual(len(found), 1, f"the matches of {pattern} in {file}")
        return found[0]

    def test_server(self):
        """The enum `Refusal`: its variants in order, their codes in both directions, and their words."""
        source = source_with("pub enum Refusal {")
        body = re.search(r"pub enum Refusal \{(.*?)\n\}", source, re.DOTALL)[1]
        variants = re.findall(r"^    (\w+),", body, re.MULTILINE)
        codes = re.findall(r"Refusal::(\w+) => (\d+),", source)
        words = re.findall(r'Refusal::(\w+) => "([a-z-]+)",', source)
        back = re.findall(r"(\d+) => Some\(Refusal::(\w+)\),", source)
        self.assertEqual([name for name, _ in codes], variants, "the variants with a code")
        self.assertEqual([name for name, _ in words], variants, "the variants with a word")
        self.assertEqual([(name, code) for code, name in back], codes, "the codes that are read")
        rows = [(int(code), word) for (_, code), (_, word) in zip(codes, words)]
        self.assertEqual(documented_refusals(), rows)

    def test_client_in_javascript(self):
        """The first words of WORDS, as many as there are codes."""
        file = "clients/js/forms.js"
        words = re.findall(r'^  "([a-z-]+)":', self.only_match(file, r"\nconst WORDS = \{(.*?)\n\}"), re.MULTILINE)
        count = int(self.only_match(file, r"const CODES = Object\.keys\(WORDS\)\.slice\(0, (\d+)\)"))
        self.assertEqual(documented_refusals(), numbered(words[:count]))

    def test_client_in_python(self):
        """The words of `grace.forms`, with their codes."""
        sys.path.insert(0, str(ROOT / "clients/python"))
        try:
            from grace.forms import CODES
        finally:
            sys.path.pop(0)
        self.assertEqual(documented_refusals(), [(code, word) for word, code in CODES.items()])

    def test_these_tests(self):
        """The words in the tables of `lib.answers`."""
        self.assertEqual(documented_refusals(), list(answers.WORDS.items()))

    def test_kinds(self):
        """The refusals by a session and those of a back, by the server's source and in `lib.answers`."""
        source = source_with("pub enum Refusal {")
        words = dict(re.findall(r'Refusal::(\w+) => "([a-z-]+)",', source))
        for method, kind in (("is_by_session", answers.BY_SESSION), ("is_of_back", answers.OF_BACK)):
            body = re.search(rf"fn {method}\(self\)(.*?)\n    \}}", source, re.DOTALL)[1]
            self.assertEqual({words[name] for name in re.findall(r"Refusal::(\w+)", body)}, kind, method)

    def codes_in_order(self):
        """Returns the messages of the table of the order of refusals, each with its codes."""
        tables = [rows for rows in tables_of(ROOT / "docs/PROTOCOL.md") if rows[0][-1] == "Tried in order"]
        self.assertEqual(len(tables), 1, "the number of tables of the order of refusals")
        return [(message, list(map(int, re.findall(r"\d+", codes)))) for message, codes in tables[0][1:]]

    def test_order_of_refusals(self):
        """The table of the order of refusals has all codes. Its codes for an operation are those of `lib.answers`."""
        rows = self.codes_in_order()
        listed = {code for _, codes in rows for code in codes}
        self.assertEqual(sorted(listed), [code for code, _ in documented_refusals()], "the codes")
        for name, word in (("a creation", "new"), ("a put", "put"), ("a drop", "drop")):
            found = [set(codes) for message, codes in rows if message.removeprefix("in a room, ") == name]
            self.assertEqual(found, [answers.INSIDE[word]], name)
