"""The tests of the package for Python, in bindings/python, by unittest over the library of
`tools/release library`."""

import os
import re
import sys
from collections.abc import Mapping

from .library import FOLDER, packed
from .suite import Tally
from .tree import PACKAGE, Texts, said, write


# Tests of which one passes, and two are skipped.
SOME_SKIPPED = """
import unittest

class Some(unittest.TestCase):
    def test_one(self):
        '''It passes.'''

    @unittest.skip("nothing is installed")
    def test_two(self):
        '''It is skipped.'''

    def test_three(self):
        self.skipTest("it's late")
"""


def count_run(tally: Tally, ran: Texts, passed: int, failed: int) -> None:
    """What a run of tests counted. One that ends otherwise has failed, and what it said is
    printed."""
    failed = failed or int(ran.returncode != 0)
    wrong = [ran.stdout] + ["the same"] * (failed - 1) if failed else []
    tally.count(passed + failed, wrong)


def unittests(tally: Tally, *modules: str) -> None:
    """Runs tests of the package: all, or those of some modules."""
    packed()
    own = os.environ | {
        "ELFMAP_LIB_DIR": FOLDER,
        "XDG_CACHE_HOME": f"{tally.folder}/cache",
        "PYTHONDONTWRITEBYTECODE": "1",
    }
    ran = said(sys.executable, "-m", "unittest", "-v", *modules, folder=PACKAGE, env=own)
    count_unittests(tally, ran, os.environ)


class Silent(Tally):
    """A tally that prints nothing."""

    def note(self, text: str) -> None:
        """Keeps quiet."""


def skipped_tests(tally: Tally) -> None:
    """A test that is skipped has not passed, and in a CI it has failed."""
    write(f"{tally.new_folder('skipped')}/test_some.py", SOME_SKIPPED)
    words = [sys.executable, "-B", "-m", "unittest", "-v", "test_some"]
    for value, right in (("", (1, 0)), ("true", (1, 2))):
        own = Silent("skipped", tally.folder)
        count_unittests(own, said(*words, folder=f"{tally.folder}/skipped"), {"CI": value})
        tally.same(f"passed and failed tests, CI {value!r}", (own.passed, own.failed), right)


def count_unittests(tally: Tally, ran: Texts, env: Mapping[str, str]) -> None:
    """What a run by `unittest -v` counted. A test that was skipped has not passed: its line is
    printed, and in a CI, which sets CI and has all that tests need, it has failed."""
    count = sum(int(it) for it in re.findall(r"^Ran (\d+) tests?", ran.stdout, re.M))
    # A test of many files fails, or is skipped, for each of them.
    faults = sum(int(it) for it in re.findall(r"(?:failures|errors)=(\d+)", ran.stdout))
    failed = min(count, faults)
    skipped = re.findall(r"^ *(.* \.\.\. skipped .*)$", ran.stdout, re.M)
    # What passed is not printed.
    said_of_others = re.sub(r"^.* \.\.\. ok\n", "", ran.stdout, flags=re.M)
    ran.stdout = re.sub(r"^test_\w+ \(.*\)\n", "", said_of_others, flags=re.M)
    count_run(tally, ran, max(count - failed - len(skipped), 0), failed)
    for it in skipped:
        tally.fail(f"skipped in a CI: {it}") if env.get("CI") else tally.note(f"skipped: {it}")
