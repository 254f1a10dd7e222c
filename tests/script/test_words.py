"""The command line."""


import unittest

from lib.serving import run

# Arguments, and the first line on standard error.
MISTAKES = [
    ([], "error: 'grace' requires a subcommand but one was not provided"),
    (["draw"], "error: unrecognized subcommand 'draw'"),
    (["script"], "error: the following required arguments were not provided:"),
    (["script", "r", "--x"], "error: unexpected argument '--x' found"),
    (["script", "R"], "grace: bad room name"),
    (["script", "r.2"], "grace: bad room name"),
    (["script", "r", "r"], "grace: room named twice"),
    (["script", "r", "r", ""], "grace: bad room name"),
    (["serve"], "error: the following required arguments were not provided:"),
    (["serve", "127.0.0.1:0", "100001", "1", "r"],
     "error: invalid value '100001' for '<SESSIONS>': 100001 is not in 0..=100000"),
    (["serve", "127.0.0.1:0", "1", "65", "r"], "error: invalid value '65' for '<WORKERS>': 65 is not in 0..=64"),
    (["serve", "--clients", "0", "127.0.0.1:0", "1", "1", "r"],
     "error: invalid value '0' for '--clients <N>': 0 is not in 1..=100000"),
    (["serve", "--idle", "x", "127.0.0.1:0", "1", "1", "r"],
     "error: invalid value 'x' for '--idle <SECONDS>': invalid digit found in string"),
    (["serve", "127.0.0.1:0", "1", "1"], "error: the following required arguments were not provided:"),
    (["serve", "--rooms", "0", "127.0.0.1:0", "1", "1"],
     "error: invalid value '0' for '--rooms <N>': 0 is not in 1..=100000"),
    (["serve", "--rooms", "100001", "127.0.0.1:0", "1", "1"],
     "error: invalid value '100001' for '--rooms <N>': 100001 is not in 1..=100000"),
    (["serve", "--rooms", "x", "127.0.0.1:0", "1", "1", "r"],
     "error: invalid value 'x' for '--rooms <N>': invalid digit found in string"),
    (["serve", "--close-after", "0", "--rooms", "1", "127.0.0.1:0", "1", "1"],
     "error: invalid value '0' for '--close-after <SECONDS>': 0 is not in 1..=86400"),
    (["serve", "--close-after", "86401", "--rooms", "1", "127.0.0.1:0", "1", "1"],
     "error: invalid value '86401' for '--close-after <SECONDS>': 86401 is not in 1..=86400"),
    (["serve", "--close-after", "x", "--rooms", "1", "127.0.0.1:0", "1", "1"],
     "error: invalid value 'x' for '--close-after <SECONDS>': invalid digit found in string"),
    (["serve", "--rooms", "1", "127.0.0.1:0", "1", "1", "R"], "grace: bad room name"),
    (["serve", "--rooms", "1", "127.0.0.1:0", "1", "1", "r", "r"], "grace: room named twice"),
    (["serve", "127.0.0.1:0", "1", "1", "R"], "grace: bad room name"),
    (["serve", "127.0.0.1:0", "1", "1", "r.2"], "grace: bad room name"),
    (["serve", "127.0.0.1:0", "1", "1", "r", "r"], "grace: room named twice"),
    (["check", "record"], "error: the following required arguments were not provided:"),
    (["migrate"], "error: the following required arguments were not provided:"),
    (["renew"], "error: the following required arguments were not provided:"),
    (["renewed", "record"], "error: the following required arguments were not provided:"),
    (["watch", "127.0.0.1:0"], "error: the following required arguments were not provided:"),
    (["watch", "127.0.0.1:1", "R"], "grace: bad room name"),
]

# Arguments, and the start of the output.
OUTPUTS = [
    (["--help"], "A group drawing server with object versions\n\nUsage: grace <COMMAND>\n"),
    (["script", "--help"],
     "Answers a script: lines SESSION MESSAGE from standard input\n\nUsage: grace script <ROOM>...\n"),
    (["serve", "--help"],
     "Serves sessions over WebSocket, then prints the rooms' records\n\n"
     "Usage: grace serve [OPTIONS] <ADDRESS> <SESSIONS> <WORKERS> [ROOM]...\n"),
    (["check", "--help"],
     "Checks a room's record and a transcript of it\n\nUsage: grace check <RECORD> <TRANSCRIPT>\n\nArguments:\n"
     "  <RECORD>      A file of the record's entries, one a line\n"
     "  <TRANSCRIPT>  A file of requests and replies, one a line\n"),
    (["migrate", "--help"],
     "Prints a room's record in today's forms\n\nUsage: grace migrate <RECORD>\n\nArguments:\n"
     "  <RECORD>  A file of the record's entries, one a line\n"),
    (["renew", "--help"],
     "Prints a short record that draws what a room's record draws\n\nUsage: grace renew <RECORD>\n\nArguments:\n"
     "  <RECORD>  A file of the record's entries, one a line\n"),
    (["renewed", "--help"],
     "Checks that a new record draws what an old one draws\n\nUsage: grace renewed <OLD> <NEW>\n\nArguments:\n"
     "  <OLD>  A file of the old record's entries, one a line\n"
     "  <NEW>  A file of the new record's entries, one a line\n"),
    (["--version"], "grace 0.4.0\n"),
]


class TestCommandLine(unittest.TestCase):
    def test_mistake(self):
        """The program exits with status 2 and this line. It reads and prints nothing."""
        for words, line in MISTAKES:
            with self.subTest(f"grace {' '.join(words)}"):
                status, output, errors = run(*words, stdin=b'0 ["leave"]\n')
                self.assertEqual((status, output, errors.split("\n")[0]), (2, "", line), "the end")

    def test_output(self):
        """The program prints text that begins like this, and succeeds."""
        for words, start in OUTPUTS:
            with self.subTest(f"grace {' '.join(words)}"):
                status, output, errors = run(*words)
                self.assertEqual((status, output[: len(start)], errors), (0, start, ""), "the end")

    def test_full_output(self):
        """If the program cannot write its output, it reports that and exits with 3."""
        for words in ["--help"], ["script", "r"]:
            with self.subTest(words=words), open("/dev/full", "wb") as full:
                status, _, errors = run(*words, stdin=b'0 ["leave"]\n', stdout=full)
                self.assertEqual((status, errors), (3, "grace: output failed\n"), "the end")
