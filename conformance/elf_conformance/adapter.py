"""What an adapter is: how a tool is called, and how its answer is read. `adapters/` has one for
each tool, in a dozen lines; README.md has one for a tool of your own."""

import json
import os
import re
import shutil
import tempfile
from collections.abc import Callable
from typing import Any, NamedTuple

from .running import MEMORY as MEMORY, SECONDS, Bounds, Ran as Ran, run

Reading = dict[str, Any]
# What a tool may say of files: the last three are found, and not said.
ACCEPTS = "accepts"
REFUSES = "refuses"
DIFFERS = "reads something else"
CRASHES = "crashes"
HANGS = "hangs"
NOT_FOR_IT = "not for it"
# The adapter does not understand the output of the tool.
NOT_UNDERSTOOD = "not understood"
KINDS = (ACCEPTS, REFUSES, DIFFERS, CRASHES, HANGS)
# The sets of files that a tool which reads files takes.
OF_READERS = frozenset({"rules", "readings", "extended", "hostile", "generated"})
ENVIRONMENT = {**os.environ, "LC_ALL": "C", "DEBUGINFOD_URLS": ""}
NO_MEMORY = re.compile(r"out of memory|bad_alloc|cannot allocate memory|memory exhausted", re.I)
# How programs in Go, in Rust and in Python say that they went wrong themselves.
PANIC = re.compile(
    r"^(?:panic: .*|fatal error: .*|thread '.*' panicked at.*(?:\n.*)?|(?:Attribute|Type|Index|Key|"
    r"ZeroDivision|Recursion|Assertion|UnboundLocal|Overflow|Memory)Error\b.*)",
    re.M,
)


class Answer(NamedTuple):
    """What a tool said of a case: the kind, why, and what it read."""

    kind: str
    why: str = ""
    reading: Reading | None = None


class Problem(NamedTuple):
    """What a tool is asked: the set, the files, the byte order, and the type of the first."""

    set: str
    paths: list[str]
    order: str = "little"
    type: int = 1


def first_line(text: str) -> str:
    """The first line of a text that says something."""
    lines = [it.strip() for it in text.splitlines() if it.strip()]
    return lines[0][:300] if lines else ""


def line_with(text: str, word: str) -> str:
    """The first line of a text that has a word; nothing if none has it. Lines may be very long."""
    at = text.find(word)
    if at < 0:
        return ""
    end = text.find("\n", at)
    line = text[text.rfind("\n", 0, at) + 1 : end if end >= 0 else len(text)]
    return line.strip()[:300]


class Adapter:
    """A tool. `{file}` in its words is the file, `{files}` all files, `{out}` what it writes, and
    `{folder}` a folder of its own."""

    name = ""
    # The command, and the one that prints the version.
    words: tuple[str, ...] = ()
    version_words: tuple[str, ...] = ()
    sets = OF_READERS
    orders = frozenset({"little", "big"})
    # The types of files that it takes; none for all.
    types: frozenset[int] = frozenset()
    # Whether it claims to check files by the standard. Others read what they need.
    checks = False
    # Whether it finds symbols by the dynamic array, and not by sections.
    is_by_array = False
    # What it is, in a few words.
    about = "reads files"
    # Why a tool that is not there is not, if that is known.
    package = ""
    seconds = SECONDS
    memory = MEMORY

    def is_there(self) -> bool:
        """Whether the tool is on this machine."""
        return shutil.which(self.words[0]) is not None

    def version(self) -> str:
        """The first line with a number of a version, of what it says of its version."""
        with tempfile.TemporaryDirectory() as folder:
            ran = run(self.version_words, Bounds(60, 0), folder, ENVIRONMENT)
        said = ran.text + ran.complaint
        found = re.search(r"^.*\d\.\d.*$", said, re.M)
        return first_line(found[0] if found else said)

    def takes(self, problem: Problem) -> bool:
        """Whether files like these are for the tool."""
        is_of_type = not self.types or problem.type in self.types
        return problem.set in self.sets and problem.order in self.orders and is_of_type

    def call(self, problem: Problem, folder: str) -> Ran:
        """Runs the tool."""
        words: list[str] = []
        for it in self.words:
            if it == "{files}":
                words += problem.paths
            else:
                it = it.replace("{file}", problem.paths[0]).replace("{folder}", folder)
                words.append(it.replace("{out}", f"{folder}/out"))
        return run(words, Bounds(self.seconds, self.memory), folder, ENVIRONMENT)

    def complaint(self, ran: Ran) -> str:
        """Why the tool refuses the file, in its own words; nothing if it accepts it. Warnings
        count."""
        if ran.complaint:
            return ran.complaint
        if ran.status:
            return line_with(ran.text, "rror") or f"status {ran.status}"
        return ""

    def reading(self, ran: Ran, folder: str) -> Reading | None:
        """What it read, as far as its output says it."""
        return None

    def refusal(self, ran: Ran) -> Reading | None:
        """What it says of a file that it refuses: `refused` and `refused_tables`, as the index has
        them."""
        return None

    def answer(self, problem: Problem) -> Answer:
        """What the tool says of a problem."""
        with tempfile.TemporaryDirectory(prefix="conformance-") as folder:
            ran = self.call(problem, folder)
            if ran.is_late:
                return Answer(HANGS, f"no answer in {self.seconds:g} s", None)
            panic = PANIC.search(ran.complaint)
            # Memory is limited by us: that it is not enough is no crash.
            if NO_MEMORY.search(ran.complaint):
                return Answer(REFUSES, first_line(ran.complaint), None)
            if ran.is_crashed or panic:
                why = f"status {ran.status}: {first_line(panic[0] if panic else ran.complaint)}"
                return Answer(CRASHES, why, None)
            complaint = self.complaint(ran)
            if complaint:
                return Answer(REFUSES, first_line(complaint), self.refusal(ran))
            try:
                own = self.reading(ran, folder)
            except (ValueError, LookupError, TypeError, AttributeError) as error:
                return Answer(NOT_UNDERSTOOD, f"{type(error).__name__}: {error}", None)
            return Answer(ACCEPTS, "", own)


class Parsed(Adapter):
    """A tool whose output a function reads."""

    parse: Callable[[str], Reading]

    def reading(self, ran: Ran, folder: str) -> Reading | None:
        """What the function finds in the output."""
        return self.parse(ran.text)


class Json(Adapter):
    """A tool that prints a reading as JSON, in the form of the index."""

    def reading(self, ran: Ran, folder: str) -> Reading | None:
        """The JSON that it prints."""
        return json.loads(ran.text)  # type: ignore[no-any-return]


class Compiled(Json):
    """A small program over a library, which is compiled when it is first needed; it prints JSON.
    `{program}` in its words is the program. `{source}` and `{build}` are for the compiler."""

    source = ""
    compiler: tuple[str, ...] = ()
    # A file that the library's package has.
    needs = ""
    words = ("{program}", "{file}")

    def program(self) -> str:
        """Where the program is, or will be."""
        return f"{build_folder()}/{self.name.replace(' ', '-')}"

    def is_there(self) -> bool:
        """Whether the program is there, or can be compiled here."""
        if os.path.exists(self.program()):
            return True
        has_parts = os.path.exists(self.needs) and shutil.which(self.compiler[0])
        return bool(has_parts) and self.build()

    def build(self) -> bool:
        """Compiles the program: whether that went well."""
        folder = build_folder()
        os.makedirs(folder, exist_ok=True)
        part = f"{self.program()}.{os.getpid()}"
        words = [
            it.replace("{source}", f"{sources()}/{self.source}")
            .replace("{program}", part)
            .replace("{build}", folder)
            for it in self.compiler
        ]
        env = {**ENVIRONMENT, "GOCACHE": f"{folder}/go", "GO111MODULE": "off"}
        ran = run(words, Bounds(600, 0), folder, env)
        if ran.status or not os.path.exists(part):
            print(f"{self.name}: its program is not compiled: {first_line(ran.complaint)}")
            return False
        os.replace(part, self.program())
        return True

    def call(self, problem: Problem, folder: str) -> Ran:
        """Runs the program."""
        words = [it.replace("{program}", self.program()) for it in self.words]
        own = [it.replace("{file}", problem.paths[0]) for it in words]
        return run(own, Bounds(self.seconds, self.memory), folder, ENVIRONMENT)


def sources() -> str:
    """Where the sources of the small programs are."""
    here = os.path.dirname(os.path.abspath(__file__))
    return os.path.join(os.path.dirname(here), "adapters", "sources")


def build_folder() -> str:
    """Where the small programs are put."""
    cache = os.environ.get("XDG_CACHE_HOME") or os.path.expanduser("~/.cache")
    return os.environ.get("CONFORMANCE_BUILD") or f"{cache}/elf-conformance"
