"""The tests of `tools/test`: each by its name, with the commands and the built crates that it
needs; alone or side by side."""

import os
import re
import sys
import tempfile
import time
import traceback
from collections.abc import Callable, Iterable
from concurrent.futures import ThreadPoolExecutor, as_completed
from contextlib import ExitStack
from dataclasses import dataclass

from .building import built
from .requirements import missing, setup, words_of
from .tree import TOP, Options, Texts, filled, progress, read_text, said

# Of a step its title, its script, and a pattern of what this prints.
Step = tuple[str, str, str]
COUNTS = re.compile(r"^(\d+) passed, (\d+) failed\n\Z", re.M)
Function = Callable[["Tally", Options], None]
# An option of a test: its words for argparse.
Option = tuple[str, dict[str, object]]
TESTS: list["Test"] = []


def steps_of(name: str, **marks: str) -> list[Step]:
    """The steps of a file of cases/, with texts for its marks, as @NAME@."""
    return re.findall(
        r"^== (.*)\n((?:.*\n)*?)= ?(.*)$", filled(read_text(f"cases/{name}"), **marks), re.M
    )


class Tally:
    """What a test counts: how many checks passed, and what failed, which is printed at once; and a
    folder that is gone after it."""

    def __init__(self, name: str, folder: str) -> None:
        self.name = name
        self.folder = folder
        self.passed = 0
        self.failed = 0

    def check(self, holds: object, why: str) -> bool:
        """One check, and what to print if it does not hold."""
        self.passed += bool(holds)
        if not holds:
            self.fail(why)
        return bool(holds)

    def same(self, what: str, found: object, right: object) -> bool:
        """One check that what was found is right."""
        return self.check(found == right, f"{what}: {found}, and not {right}")

    def fail(self, why: str) -> None:
        """One check that failed."""
        self.failed += 1
        self.note(why)

    def count(self, tried: int, wrong: Iterable[str]) -> None:
        """So many checks, of which these went wrong."""
        before = self.failed
        for it in wrong:
            self.fail(it)
        self.passed += tried - (self.failed - before)

    def try_steps(self, steps: list[Step], run: Callable[[str], str]) -> None:
        """Checks of each step that what its script prints fits the pattern."""
        if not steps:
            self.fail("there is no step")
        for title, script, pattern in steps:
            found = run(script)
            self.check(re.fullmatch(pattern, found), f"{title}: `{script}` says:\n{found}")

    def new_folder(self, name: str) -> str:
        """A folder of this name in the test's own."""
        os.mkdir(f"{self.folder}/{name}")
        return f"{self.folder}/{name}"

    def note(self, text: str) -> None:
        """Prints something under the name of the test."""
        print(f"{self.name}: {text}", flush=True)


@dataclass
class Test:
    """A test, set before its function: `@Test("NAME", "what it shows")`. It has the commands that
    it starts and the crates that have to be built, as words; `alone` is one that uses all
    processors itself, or looks at the clock."""

    name: str
    about: str
    commands: str = ""
    crates: str = ""
    alone: bool = False
    family: str = ""
    options: tuple[Option, ...] = ()

    def __call__(self, function: Function) -> Function:
        self.function = function
        TESTS.append(self)
        return function


def word(name: str, about: str, **more: object) -> Option:
    """A word of a command, or an option of it, which begins with `-`."""
    own: dict[str, object] = {"help": about}
    if not name.startswith("-"):
        own["metavar"] = name.upper()
    return name, {**own, **more}


def number(name: str, default: int, about: str) -> Option:
    """An option that is a number."""
    return word(f"--{name}", f"{about} ({default})", type=int, default=default, metavar="N")


def by_chance(count: int, what: str) -> tuple[Option, ...]:
    """The options of a test that tries so many things by chance."""
    return (
        number("count", count, f"so many {what}"),
        number("seed", 1, f"the same seed makes the same {what}"),
    )


def flag(name: str, about: str) -> Option:
    """An option that is given or not."""
    return word(f"--{name}", about, action="store_true")


def commands_of(tests: Iterable[Test]) -> list[str]:
    """The commands that these tests start, each once."""
    return list(dict.fromkeys(command for it in tests for command in it.commands.split()))


def families(tests: list[Test]) -> dict[str, list[Test]]:
    """The tests of each family, by its name."""
    found: dict[str, list[Test]] = {}
    for it in tests:
        if it.family:
            found.setdefault(it.family, []).append(it)
    return found


# ---- a run


def run_one(test: Test, options: Options) -> int:
    """Runs a test here: prints what failed, and last how many passed. A test whose commands are
    missing has failed."""
    with ExitStack() as stack:
        folder = stack.enter_context(tempfile.TemporaryDirectory(prefix=f"elfmap-{test.name}."))
        stack.enter_context(progress(lambda: f"tools/test {test.name}"))
        tally = Tally(test.name, folder)
        try:
            if lacking := missing(test.commands.split()):
                raise SystemExit(words_of(lacking))
            for crate in test.crates.split():
                built(crate)
            test.function(tally, options)
        except (Exception, SystemExit) as error:
            trace = "" if isinstance(error, SystemExit) else traceback.format_exc()
            tally.fail(f"it ended early: {error}\n{trace}".rstrip())
        if not tally.passed and not tally.failed:
            tally.fail("it tried nothing")
    print(f"{tally.passed} passed, {tally.failed} failed")
    return 1 if tally.failed else 0


class Run:
    """A run of several tests, each in a process of its own."""

    def __init__(self) -> None:
        self.running: list[str] = []
        self.passed = 0
        self.failed = 0
        # What is printed last: what was skipped, and then which tests failed.
        self.skipped: list[str] = []
        self.failures: list[str] = []

    def run(self, test: Test) -> tuple[Test, float, Texts]:
        """Runs a test: how many seconds it took, and how it ended."""
        self.running.append(test.name)
        begun = time.monotonic()
        ended = said(sys.executable, f"{TOP}/tools/test", test.name)
        self.running.remove(test.name)
        return test, time.monotonic() - begun, ended

    def count(self, test: Test, seconds: float, ended: Texts) -> None:
        """Prints what a test printed, and counts what it counted."""
        print(f"{test.name}: {seconds:.0f} s\n{ended.stdout}", end="", flush=True)
        # One that ends without its last line has failed.
        counts = COUNTS.search(ended.stdout)
        passed, failed = (int(counts[1]), int(counts[2])) if counts else (0, 1)
        failed = failed or int(ended.returncode != 0)
        self.passed += passed
        self.failed += failed
        skipped = re.findall(rf"^{test.name}: (skipped: .*)", ended.stdout, re.M)
        self.skipped[:0] = skipped
        if failed:
            what = f"failed: {failed} of {test.name}: run `tools/test {test.name}`"
            self.failures.append(what)

    def all(self, tests: list[Test], jobs: int) -> None:
        """Runs these tests, so many side by side, and then those that run alone."""
        with ThreadPoolExecutor(jobs) as pool:
            beside = [pool.submit(self.run, it) for it in tests if not it.alone]
            for ended in as_completed(beside):
                self.count(*ended.result())
            for it in tests:
                if it.alone:
                    self.count(*self.run(it))


def run_several(tests: list[Test], options: Options) -> int:
    """Installs what is missing, builds what is older than its texts, and runs these tests; prints
    what each printed, in one piece, and counts what it counted."""
    setup(commands_of(tests))
    for crate in dict.fromkeys(crate for it in tests for crate in it.crates.split()):
        try:
            built(crate)
        except SystemExit as error:
            print(f"tools/test: {error}")
    run = Run()
    with progress(lambda: f"tools/test {', '.join(run.running)}"):
        run.all(tests, options.jobs)
    print("\n".join([*run.skipped, *run.failures, f"{run.passed} passed, {run.failed} failed"]))
    return 1 if run.failed else 0
