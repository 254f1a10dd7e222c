"""Scripts and their answers."""

from lib.checks import check
from lib.serving import run


def expect_answers(rooms, lines, answers):
    """Expects that a script of these lines gets these answers and succeeds."""
    text = "".join(f"{line}\n" for line in lines)
    status, output, errors = run("script", *rooms, stdin=text.encode())
    check.assertEqual((status, errors), (0, ""), "the end")
    output_lines = output.split("\n")
    check.assertEqual(output_lines.pop(), "", "the end of the last line")
    for line, answer, expected in zip(lines, output_lines, answers):
        check.assertEqual(answer, expected, f"the answer to {line!r:.100}")
    check.assertEqual(len(output_lines), len(answers), "how many lines")
