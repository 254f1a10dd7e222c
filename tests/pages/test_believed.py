"""`./believed` over a small tree of its own: two crates, a promise, and the page."""

import contextlib
import importlib.machinery
import importlib.util
import io
import pathlib
import tempfile
import unittest

from lib.serving import ROOT

# The files of the tree. The contract of `twice` names `double`, whose module imports that of `Digit`. It does not name
# `half`, and nothing reaches the step.
TREE = {
    "crates.txt": "low:\nhigh: low\n",
    "crates/low/specs/Lib.antt": "pub mod Numbers\npub mod Digits\n",
    "crates/low/specs/Numbers.antt": (
        "use Rattle.low.specs.Digits.{Digit}\n\n-- Twice as much.\ndouble : Digit → Digit\n"
    ),
    "crates/low/specs/Digits.antt": "-- A digit.\nDigit : Set\nzero : Digit\n",
    "crates/low/specs/steps/Halves.antt": "half : ℕ → ℕ\n",
    "crates/high/src/lib.rt": (
        "ghost use Rattle.low.specs.Numbers.{double};\n"
        "ghost use Rattle.low.specs.steps.Halves.{half};\n\n"
        "pub fn twice(number: u8) -> u8\n    ensures { result ≡ double number }\n{\n    number + number\n}\n"
    ),
    "docs/PROOFS.md": "# Proofs\n\n<!-- believed: begin -->\n<!-- believed: end -->\n\nThe end.\n",
}
PROMISE = ("Twice", "`high::twice`", (("high/src/lib.rt", ("twice",)),))
WRITTEN = """# Proofs

<!-- believed: begin -->

**Twice** (`high::twice`): 2 modules, 5 lines.

- `low`: `Digits` 3, `Numbers` 2

All together: 2 modules, 5 lines, of which 2 are comments.

<!-- believed: end -->

The end.
"""
NUMBERS, DIGITS, HALVES = (f"crates/low/specs/{name}.antt" for name in ("Numbers", "Digits", "steps/Halves"))
PAGE = "docs/PROOFS.md"


class Tree:
    """A copy of the script over files in a folder."""

    def __init__(self, folder):
        self.folder = pathlib.Path(folder)
        for name, text in TREE.items():
            self.write(name, text)
        loader = importlib.machinery.SourceFileLoader("believed", str(ROOT / "believed"))
        self.script = importlib.util.module_from_spec(importlib.util.spec_from_loader("believed", loader))
        loader.exec_module(self.script)
        self.script.ROOT, self.script.CRATES, self.script.PAGE = self.folder, self.folder / "crates", self.folder / PAGE
        self.script.PROMISES, self.script.DETERMINED = (PROMISE,), {}

    def write(self, name, text):
        """Writes a file."""
        (self.folder / name).parent.mkdir(parents=True, exist_ok=True)
        (self.folder / name).write_text(text)

    def replace(self, name, before, after):
        """Replaces a text of a file, which must have it."""
        text = (self.folder / name).read_text()
        assert before in text, f"{name} has no {before!r}"
        self.write(name, text.replace(before, after))

    def move(self, name, other):
        """Moves a file."""
        (self.folder / name).rename(self.folder / other)

    def run(self, *words):
        """Runs the script with these words. Returns the status and the lines that it printed."""
        output = io.StringIO()
        with contextlib.redirect_stdout(output):
            status = self.script.main(list(words))
        return status, output.getvalue().splitlines()


class TestBelieved(unittest.TestCase):
    def setUp(self):
        """Makes a tree of which the page is as it has to be."""
        folder = tempfile.TemporaryDirectory()
        self.addCleanup(folder.cleanup)
        self.tree = Tree(folder.name)
        self.tree.run("--write")

    def expect_failed(self, *lines):
        """Expects that a check prints these lines, in this order, and fails."""
        expected = [f"believed: {line}" for line in lines]
        self.assertEqual(self.tree.run("--check"), (1, [*expected, "0 passed, 1 failed"]))

    def expect_not_found(self, text):
        """Expects that a check ends because of what does not exist."""
        with self.assertRaises(self.tree.script.NotFound) as caught:
            self.tree.run("--check")
        self.assertEqual(str(caught.exception), text)

    def test_written(self):
        """The script writes the modules that a promise reaches between its marks, and then finds no difference."""
        self.assertEqual((self.tree.folder / PAGE).read_text(), WRITTEN)
        self.assertEqual(self.tree.run("--check"), (0, ["1 passed, 0 failed"]))

    def test_definition_added(self):
        """A definition more makes the counts of the page wrong."""
        self.tree.write(DIGITS, TREE[DIGITS] + "one : Digit\n")
        self.expect_failed(
            f"{PAGE} lacks the line: **Twice** (`high::twice`): 2 modules, 6 lines.",
            f"{PAGE} lacks the line: - `low`: `Digits` 4, `Numbers` 2",
            f"{PAGE} lacks the line: All together: 2 modules, 6 lines, of which 2 are comments.",
            f"{PAGE} has a wrong line: **Twice** (`high::twice`): 2 modules, 5 lines.",
            f"{PAGE} has a wrong line: - `low`: `Digits` 3, `Numbers` 2",
            f"{PAGE} has a wrong line: All together: 2 modules, 5 lines, of which 2 are comments.",
        )

    def test_import_added(self):
        """A step that a promise now reaches belongs beside the other definitions."""
        self.tree.write(NUMBERS, "use Rattle.low.specs.steps.Halves.{half}\n" + TREE[NUMBERS])
        self.tree.run("--write")
        self.expect_failed(f"{HALVES}: {NUMBERS} brings it into a promise, so it belongs in specs/")

    def test_contract_changed(self):
        """A step that a contract names belongs there too."""
        self.tree.replace("crates/high/src/lib.rt", "double number }", "double (half number) }")
        self.tree.run("--write")
        self.expect_failed(f"{HALVES}: crates/high/src/lib.rt brings it into a promise, so it belongs in specs/")

    def test_import_dropped(self):
        """A module that no promise reaches any more belongs among the steps."""
        self.tree.replace(NUMBERS, "use Rattle.low.specs.Digits.{Digit}\n", "")
        self.tree.run("--write")
        self.expect_failed(f"{DIGITS}: no promise reaches it, so it belongs in specs/steps/")

    def test_module_dropped(self):
        """An import of a module that is gone is named."""
        (self.tree.folder / DIGITS).unlink()
        self.expect_not_found("crates/low/specs has no module Digits")

    def test_contract_dropped(self):
        """A function of a promise that is gone is named."""
        self.tree.replace("crates/high/src/lib.rt", "fn twice", "fn thrice")
        self.expect_not_found("crates/high/src/lib.rt has no function twice")

    def test_moved_to_steps(self):
        """A module of a promise that is moved to the steps does not belong there, and the page has its old name."""
        self.tree.move(DIGITS, "crates/low/specs/steps/Digits.antt")
        self.tree.replace(NUMBERS, "specs.Digits", "specs.steps.Digits")
        self.expect_failed(
            f"{PAGE} lacks the line: - `low`: `steps/Digits` 3, `Numbers` 2",
            f"{PAGE} has a wrong line: - `low`: `Digits` 3, `Numbers` 2",
            f"crates/low/specs/steps/Digits.antt: {NUMBERS} brings it into a promise, so it belongs in specs/",
        )

    def test_moved_from_steps(self):
        """A step that is moved beside the definitions does not belong there."""
        self.tree.move(HALVES, "crates/low/specs/Halves.antt")
        self.expect_failed("crates/low/specs/Halves.antt: no promise reaches it, so it belongs in specs/steps/")

    def test_page_differs(self):
        """A line of the page that is wrong, in another place, or without its marks is found."""
        self.tree.replace(PAGE, "2 modules, 5 lines.\n\n-", "3 modules, 5 lines.\n\n-")
        self.expect_failed(
            f"{PAGE} lacks the line: **Twice** (`high::twice`): 2 modules, 5 lines.",
            f"{PAGE} has a wrong line: **Twice** (`high::twice`): 3 modules, 5 lines.",
        )
        self.tree.write(PAGE, WRITTEN.replace("lines.\n\n- ", "lines.\n- "))
        self.expect_failed(f"{PAGE} has the lines in another order, or different empty lines")
        self.tree.write(PAGE, "# Proofs\n")
        self.expect_failed(f"{PAGE} has no lines <!-- believed: begin --> and <!-- believed: end -->")

    def test_text_around(self):
        """Text outside the marks does not matter, and stays when the script writes."""
        self.tree.write(PAGE, WRITTEN.replace("The end.", "More."))
        self.assertEqual(self.tree.run("--check"), (0, ["1 passed, 0 failed"]))
        self.tree.run("--write")
        self.assertEqual((self.tree.folder / PAGE).read_text(), WRITTEN.replace("The end.", "More."))

    def test_printed(self):
        """Without a word the script prints the text. It takes no other words than the two."""
        status, lines = self.tree.run()
        self.assertEqual((status, lines), (0, WRITTEN.splitlines()[4:-4]))
        with contextlib.redirect_stderr(io.StringIO()):
            self.assertEqual(self.tree.run("--other"), (2, []))


class TestSecondPromise(unittest.TestCase):
    def setUp(self):
        """Makes a tree with a second promise, whose contract is that of `Pair::sum`."""
        folder = tempfile.TemporaryDirectory()
        self.addCleanup(folder.cleanup)
        self.tree = Tree(folder.name)
        self.tree.script.PROMISES += (("Sum", "`high::Pair::sum`", (("high/src/pair.rt", ("sum",)),)),)
        self.tree.write("crates/low/specs/Sums.antt", "-- A sum.\nsum_of : Digit → Digit → Digit\n")
        self.tree.write("crates/high/specs/Lib.antt", "pub use Rattle.low.specs.Sums\n")

    def text_of_sum(self, *lines):
        """Returns what the script prints of the second promise, if its file has these lines."""
        self.tree.write("crates/high/src/pair.rt", "".join(f"{line}\n" for line in lines))
        _, printed = self.tree.run()
        _, first, *second = "\n".join(printed).split("**")
        self.assertEqual((first, second[1]), ("Twice", "Sum"))
        return second[2].split("\n\n")[:-1]

    def test_method(self):
        """A contract's words are those of the method, and of the ghost items of its type and of the type's model. What
        another method says, and another type, does not count."""
        self.tree.write("crates/low/specs/Marks.antt", "IsMarked : Digit → Set\n")
        text = self.text_of_sum(
            "ghost use Rattle.low.specs.Sums.{sum_of};",
            "ghost use Rattle.low.specs.steps.Halves.{half};",
            "",
            "impl<const MOST: usize> Model for Pair<MOST> {",
            "    ghost use Rattle.low.specs.Marks.{IsMarked};",
            "    ghost invariant = { λ pair.",
            "        IsMarked pair.first };",
            "}",
            "",
            "impl<const MOST: usize> Pair<MOST> {",
            "    pub fn sum(&self) -> u8",
            "        ensures { result ≡ sum_of (self.first) (self.second) }",
            "    {",
            "    }",
            "",
            "    pub fn half(&self) -> u8",
            "        ensures { result ≡ half (self.first) }",
            "    {",
            "    }",
            "}",
            "",
            "impl Model for Other {",
            "    ghost view = { λ other. half other.first };",
            "}",
        )
        self.assertEqual(text, [" (`high::Pair::sum`): 2 modules more, 3 lines.", "- `low`: `Sums` 2, `Marks` 1"])

    def test_declared(self):
        """Types and constants that `src/` declares are listed by their modules, and not followed."""
        text = self.text_of_sum(
            "ghost use Rattle.high.specs.declared.pair.Pair.{Pair};",
            "ghost use Rattle.low.specs.Sums.{sum_of};",
            "pub fn sum(pair: Pair) -> u8",
            "    ensures { result ≡ first Pair }",
            "{",
        )
        self.assertEqual(text, [
            " (`high::Pair::sum`): 0 modules more, 0 lines.",
            "Types and constants as declared in `src/`: `high` `pair`.",
        ])

    def test_re_exported(self):
        """A module that a crate only passes on is the one of the other crate."""
        text = self.text_of_sum(
            "ghost use Rattle.high.specs.Sums.{sum_of as both};", "pub fn sum() -> u8", "    ensures { both }", "{",
        )
        self.assertEqual(text, [" (`high::Pair::sum`): 1 module more, 2 lines.", "- `low`: `Sums` 2"])

    def test_of_another_repository(self):
        """A crate that is not in this repository is not followed."""
        text = self.text_of_sum(
            "ghost use Rattle.std.specs.Lists as lists;", "pub fn sum() -> u8", "    ensures { lists }", "{",
        )
        self.assertEqual(text, [" (`high::Pair::sum`): 0 modules more, 0 lines."])

    def test_determined(self):
        """In place of a module that a law determines, what the law's contract cites is reached. The module and what
        only it imports are named, and may be steps."""
        self.tree.script.DETERMINED = {
            ("low", "steps/Reads"): ("`low::laws`", "low/src/laws.rt", ("read_by_form",)),
        }
        self.tree.write("crates/low/specs/steps/Reads.antt", (
            "use Rattle.low.specs.steps.Halves.{half}\nuse Rattle.low.specs.Digits.{Digit}\nread : Digit → Digit\n"
        ))
        self.tree.write("crates/low/src/laws.rt", (
            "ghost use Rattle.low.specs.Sums.{sum_of};\nghost use Rattle.low.specs.steps.Reads.{read};\n"
            "pub fn read_by_form()\n    ensures { read ≡ sum_of }\n{}\n"
        ))
        text = self.text_of_sum(
            "ghost use Rattle.low.specs.steps.Reads.{read};", "pub fn sum() -> u8", "    ensures { read }", "{",
        )
        self.assertEqual(text, [
            " (`high::Pair::sum`): 1 module more, 2 lines.", "- `low`: `Sums` 2",
            "Determined by the law `low::laws` (`read_by_form`), and not counted: `low` `steps/Reads` 1,"
            " `low` `steps/Halves` 1.",
        ])
        self.tree.run("--write")
        self.assertEqual(self.tree.run("--check"), (0, ["1 passed, 0 failed"]))

    def test_determined_twice(self):
        """What two determined modules import is named with the first of them."""
        self.tree.script.PROMISES += (("Lines", "`high::lines`", (("high/src/lines.rt", ("lines",)),)),)
        self.tree.script.DETERMINED = {
            ("low", f"steps/{name}"): ("`low::laws`", "low/src/laws.rt", (law,))
            for name, law in (("Reads", "read_by_form"), ("Lines", "lines_by_form"))
        }
        laws = ""
        for name, word, law in (("Reads", "read", "read_by_form"), ("Lines", "line", "lines_by_form")):
            self.tree.write(f"crates/low/specs/steps/{name}.antt", (
                f"use Rattle.low.specs.steps.Halves.{{half}}\n{word} : Digit\n"
            ))
            laws += f"ghost use Rattle.low.specs.steps.{name}.{{{word}}};\n"
            laws += f"pub fn {law}()\n    ensures {{ {word} }}\n{{}}\n"
            self.tree.write(f"crates/high/src/{'pair' if word == 'read' else 'lines'}.rt", (
                f"ghost use Rattle.low.specs.steps.{name}.{{{word}}};\n"
                f"pub fn {'sum' if word == 'read' else 'lines'}()\n    ensures {{ {word} }}\n{{}}\n"
            ))
        self.tree.write("crates/low/src/laws.rt", laws)
        _, printed = self.tree.run()
        self.assertEqual([line for line in printed if line.startswith("Determined")], [
            "Determined by the law `low::laws` (`read_by_form`), and not counted: `low` `steps/Reads` 1,"
            " `low` `steps/Halves` 1.",
            "Determined by the law `low::laws` (`lines_by_form`), and not counted: `low` `steps/Lines` 1.",
        ])
