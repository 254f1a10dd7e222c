"""Runs tests of `unittest`. Each has a time limit, and a line when it ends. The last line is 'N passed, M failed'."""

import argparse
import signal
import sys
import time
import unittest

# The time limit of a test, and of each of its subtests, in seconds. The attribute `time_limit` of a class replaces it.
# Most tests take less than a second. Before Python 3.11 the subtests of a test have one limit together, since
# `unittest` tells of them at the end of the test.
SECONDS = 300

# The command-line options of tests/run, with their defaults.
OPTIONS = argparse.Namespace(seed=None, connections=10_000, back=100, times=10, crowd=1, turns=3)


class TooLong(Exception):
    """A test ran out of time."""


def give_up(*_):
    raise TooLong("not done in time")


class Result(unittest.TextTestResult):
    """Prints a line for each test that ends, and bounds its time."""

    def __init__(self, *arguments, **options):
        super().__init__(*arguments, **options)
        self.passed = 0
        self.failed_lines = []
        self.start = time.monotonic()

    def startTest(self, test):
        super().startTest(test)
        self.start = time.monotonic()
        self.bound(test)

    def bound(self, test):
        """Gives a test, or its next subtest, the time limit of its class from now on."""
        seconds = getattr(test, "time_limit", SECONDS)
        # The alarm repeats, so that a test that goes on after it is bounded too.
        signal.setitimer(signal.ITIMER_REAL, seconds, seconds)

    def stopTest(self, test):
        signal.setitimer(signal.ITIMER_REAL, 0)
        super().stopTest(test)

    def tell(self, outcome, test, why=""):
        """Prints the line of a test, and keeps it if the test failed."""
        seconds = time.monotonic() - self.start
        line = f"{outcome}: {test.id()}{why and ': '}{why} ({seconds:.1f} s)"
        self.stream.writeln(line)
        self.stream.flush()
        if outcome == "failed":
            self.failed_lines.append(line)

    def tell_fault(self, test, fault):
        """Prints the line of a test that failed, with the beginning of the reason. All of it follows at the end."""
        kind, value, _ = fault
        reason = " ".join(str(value).split())
        self.tell("failed", test, f"{kind.__name__}: {reason:.300}")

    def addSuccess(self, test):
        super().addSuccess(test)
        self.passed += 1
        self.tell("passed", test)

    def addFailure(self, test, err):
        super().addFailure(test, err)
        self.tell_fault(test, err)

    def addError(self, test, err):
        super().addError(test, err)
        self.tell_fault(test, err)

    def addSkip(self, test, reason):
        super().addSkip(test, reason)
        self.tell("skipped", test, reason)

    def addSubTest(self, test, subtest, err):
        super().addSubTest(test, subtest, err)
        if err:
            self.tell_fault(subtest, err)
        self.bound(test)


def run_tests(tests):
    """Runs these tests. Prints the lines of those that failed once more, and the counts. Returns the exit status: 0 if
    some passed and none failed."""
    signal.signal(signal.SIGALRM, give_up)
    # What runs in the background of a shell ignores SIGINT, and so would the programs that tests start and interrupt.
    signal.signal(signal.SIGINT, signal.default_int_handler)
    result = unittest.TextTestRunner(stream=sys.stdout, verbosity=0, resultclass=Result).run(tests)
    for line in result.failed_lines:
        print(line)
    print(f"{result.passed} passed, {len(result.failed_lines)} failed")
    return 0 if result.passed and not result.failed_lines else 1


def loader_of(words):
    """Returns a loader of the tests whose names contain one of these words, or of all if there are none. A name is that
    of the module, the class and the function. A word may be a pattern, as of `python3 -m unittest -k`."""
    loader = unittest.TestLoader()
    loader.testNamePatterns = [word if "*" in word else f"*{word}*" for word in words] or None
    return loader


def parser_of(doc):
    """Returns the parser of a test program's command line."""
    parser = argparse.ArgumentParser(description=doc, allow_abbrev=False)
    parser.add_argument("words", nargs="*", help="words in the names of tests")
    return parser
