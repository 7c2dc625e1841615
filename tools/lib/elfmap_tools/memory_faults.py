"""`tools/test memory-faults`: every place in the libraries (crates/elf*/src) that makes out of
memory: where a value `OutOfMemory`, of whatever fault, or `AllocError` is in an expression. It may
be made, as far as the lines of a function show, as `rt fmt` lays them out,

in a `From` of another out of memory (`impl From<AllocError> for Fault`), in the arm of a `match`
for out of memory (`Err(Fault::OutOfMemory) => Err(ToolFault::OutOfMemory)`), in the arm `Err(_)` of
a `match`, or the `else` of a `let`, on a growth, or on a call whose only fault is out of memory, as
one that writes into a sink, in a function that is called from such places alone; of a text that a
buffer has room for, and that was not kept; and in the arm that is left after the one other fault.

The size of a growth, which sizes.py judges, has to be a length in hand, a sum of such, or a
constant of at most a MiB.

And every place that makes a failed write: a `WriteFault`, a `Write` of another fault, an `Io` that
has `written`. It may be made in a `From` and in a method `after`, which have a failed write; where
a call of a writer failed or took nothing, the arm `_` on `write`; and where a call that writes
failed, the arm `Err(..)` on it.

Then the bodies of cases/memory_faults.bodies, which make either fault thoughtlessly, are planted,
one in each library, all in the first; and at each growth sizes that are far too large only where
there is much (LARGE). Each has to be refused."""

import collections
import glob
import re
import textwrap
from collections.abc import Iterator

from .functions import WANT, WRITTEN, Function, functions_in
from .sizes import SIZED, Growth, Sizes, growths_in
from .sources import indent_of
from .suite import Tally, Test
from .tree import TOP, Options, read_text

# Calls of the standard library that fail only where memory is refused; and those by a number, which
# sizes.py judges.
GROWTHS = SIZED | {
    "push",
    "push_str",
    "insert",
    "extend_from_slice",
    "collect",
    "to_vec",
    "try_clone",
    "format!",
    "append",
}
# Engines over bytes. Those for C write into a vector, which fails for nothing else, or write
# nothing, and have no reader.
INTO_A_VECTOR = {
    "show_length",
    "put_verdicts",
    "rewrite_within",
    "map_length",
    "link_length",
    "link_verdict",
}
OF_CRATE = "crates/elf_c_engines/"
# The function that says so of a text that has room, but was not kept.
NOT_KEPT = ("crates/elf_c_engines/src/said.rt", "unkept")
# A writer that does not fail.
SINK = "&mut sink()"
FAILED_WRITE = re.compile(r"\b(?:WriteFault|\w+::Write) \{|\w+::Io \{ ?written")
# Sizes in place of one, which stands for @.
LARGE = (
    "(@).max(((@) >> 20) << 44)",
    "(@).saturating_mul(1 << 20)",
    "(@) + ((@) / 4096).pow(4)",
    "(@).max(1 << 30)",
)
ARM = re.compile(r"(?!match |let |if )(.*?) => ")
ENUM_WITH_WANT = re.compile(
    r"^(?:pub(?:\(crate\))? )?enum (\w+)[^{]*\{(?:[^{}]|\{[^}]*\})*?^    OutOfMemory,", re.M
)
LET = re.compile(r"(?:.*(?:if|while|&&) )?let (.*?) = (.*?)( else)? \{$")


def last_call(expression: str) -> str:
    """The name of the call that an expression ends with: a function's, a method's, or a macro's."""
    bare = ""
    shorter = expression.rstrip("? ")
    # What is in brackets, from inside to outside, becomes a sign.
    while bare != shorter:
        bare = shorter
        shorter = re.sub(r"[(\[][^()\[\]]*[)\]]", "¤", shorter)
    name = re.search(r"(\w+!?)(?:::<[^¤]*>)?¤$", bare)
    return name[1] if name else ""


class Reading:
    """The places of one function: of each its line, and why a fault may be made there, if it
    may."""

    def __init__(self, function: Function, memory_calls: set[str], write_calls: set[str]) -> None:
        self.function = function
        self.memory_calls = memory_calls
        self.write_calls = write_calls
        self.places: list[tuple[int, str]] = []
        self.written: list[tuple[int, str]] = []
        for at in function.inner:
            line = function.lines[at]
            made = re.sub(r"[!=]= [\w:]+", "", re.sub(r"^.*? => |\blet .*? = ", "", line))
            self.places += [(at, self.form(at))] * len(WANT.findall(made))
            if made.endswith("::Io {"):
                made = f"{made} {function.lines[at + 1].strip()}"
            if FAILED_WRITE.search(made):
                self.written.append((at, self.failed(at)))

    def branches(self, at: int) -> Iterator[tuple[str, str, bool]]:
        """The patterns under which a line is: each with what is matched, and whether it is the
        `else` of a `let`."""
        statements = self.function.statements(at)
        for own, outer in zip(statements, [*statements[1:], ""]):
            arm = ARM.match(own)
            let = LET.match(own)
            scrutinee = re.search(r"\bmatch (.*) \{$", outer)
            if arm and scrutinee:
                yield arm[1], scrutinee[1], False
            if let:
                yield let[1], let[2], bool(let[3])

    def form(self, at: int) -> str:
        """Why out of memory may be made in a line, if it may."""
        if self.function.is_from:
            return "From"
        if (self.function.path, self.function.name) == NOT_KEPT:
            return "text with room"
        for pattern, expression, is_else in self.branches(at):
            is_growth = last_call(expression) in self.memory_calls or SINK in expression
            if not is_else and all(WANT.search(it) for it in pattern.split("|")):
                return "out of memory"
            if is_growth and (pattern.startswith("Ok") if is_else else pattern == "Err(_)"):
                return "refused growth"
        return ""

    def failed(self, at: int) -> str:
        """Why a failed write may be made in a line, if it may."""
        for pattern, expression, is_else in self.branches(at):
            call = last_call(expression)
            head = set(re.findall(r"\w+", self.function.head))
            if pattern == "_" and call == "write":
                return "failed call of a writer"
            is_of_write = call in self.write_calls or expression in head and WRITTEN.keys() & head
            if not is_else and pattern.startswith("Err") and is_of_write:
                return "failed write"
        own = self.function
        has_failed_write = own.name == "after" or own.is_from or own.is_of_write
        return "failed write" if has_failed_write else ""


# The files of the libraries by their paths.
Files = dict[str, str]
# A place: its line, why a fault may be made there, if it may, and what is wrong if not.
Place = tuple[int, str, str]
NO_WRITE = "a failed write is made where no call of a writer failed"
NO_GROWTH = "out of memory is made where no growth was refused"


def readings_of(functions: list[Function]) -> list[Reading]:
    """The places of these functions."""
    # The name of a function that has other faults too says nothing.
    others = {it.name for it in functions if it.faults == "other" and it.name not in GROWTHS}
    memory_calls = (GROWTHS | {it.name for it in functions if it.faults == "out"}) - others
    write_calls = {"write"} | {it.name for it in functions if it.fault in WRITTEN}
    found: list[Reading] = []
    for it in functions:
        more = INTO_A_VECTOR if it.path.startswith(OF_CRATE) else set()
        found.append(Reading(it, memory_calls | more, write_calls))
    return found


def form_of_calls(readings: list[Reading], name: str) -> str:
    """Why out of memory may be made in a function of this name, if each line that calls it may make
    it."""
    call = re.compile(rf"\b{name}\(")
    forms: list[str] = []
    for it in readings:
        for at in it.function.inner:
            if call.search(it.function.lines[at]):
                forms.append(it.form(at))
    return "called where a growth was refused" if forms and all(forms) else ""


def places_of(reading: Reading, readings: list[Reading]) -> list[Place]:
    """The places where a function makes a fault."""
    by_callers = ""
    if not all(form for _, form in reading.places):
        by_callers = form_of_calls(readings, reading.function.name)
    found = [(at, form, NO_WRITE) for at, form in reading.written]
    found += [(at, form or by_callers, NO_GROWTH) for at, form in reading.places]
    return found


def faults_in(files: Files) -> tuple[collections.Counter[str], list[str]]:
    """What the functions of these files make: the count of places by form, and what is wrong, each
    as a place with its reason."""
    functions = [it for path, text in files.items() for it in functions_in(path, text)]
    readings = readings_of(functions)
    sizes = Sizes(functions, files.values())
    forms = collections.Counter[str]()
    wrong: list[str] = []
    for it in readings:
        function = it.function
        made = places_of(it, readings)
        asked: list[Place] = [(at, "", why) for at, why in sizes.findings(function)]
        forms["size in hand"] += len(growths_in(function)) - len(asked)
        forms.update(form for _, form, _ in made if form)
        for at, form, why in made + asked:
            if not form:
                wrong.append(f"{function.path}:{at + 1}: {function.name}: {why}")
    return forms, wrong


def planted(text: str, function: Function, way: str, value: str) -> str:
    """The text of a file with a body that gives up at the head of a function: its body begins a
    line."""
    filled = way.replace("VALUE", value).replace("FAULT", function.fault).strip("\n")
    head, _, rest = filled.partition("\n\n")
    lines = text.split("\n")
    indent = " " * (indent_of(lines[function.begin]) + 4)
    lines.insert(function.begin + 1, textwrap.indent(head, indent))
    return "\n".join([*lines, rest])


# Of each crate a function with a fault, and a value of this.
Plants = dict[str, tuple[Function, str]]


def plants_in(files: Files) -> tuple[Plants, Plants]:
    """The first function of each crate that makes out of memory, and the first that makes a failed
    write."""
    enums = {name for text in files.values() for name in ENUM_WITH_WANT.findall(text)}
    out_of_memory: Plants = {}
    failed_writes: Plants = {}
    for path, text in files.items():
        crate = path.split("/")[1]
        for it in functions_in(path, text):
            if it.is_from:
                continue
            if it.faults == "out":
                out_of_memory.setdefault(crate, (it, it.fault))
            elif it.fault in enums:
                out_of_memory.setdefault(crate, (it, f"{it.fault}::OutOfMemory"))
            if it.fault in WRITTEN:
                failed_writes.setdefault(crate, (it, WRITTEN[it.fault]))
    return out_of_memory, failed_writes


def larger_sizes(growth: Growth) -> tuple[str, ...]:
    """The sizes that are planted at a growth."""
    if re.fullmatch(r"[A-Z_\d]+", growth.size):
        # Of a constant the others are what it is.
        return LARGE[-1:]
    return LARGE if growth.is_wanted else LARGE[:-1]


def is_refused(files: Files, function: Function, growth: Growth, size: str) -> bool:
    """Whether a growth by this size, in place of its own, is a finding."""
    path = function.path
    lines = files[path].split("\n")
    larger = size.replace("@", growth.size)
    lines[growth.line] = lines[growth.line].replace(growth.size, larger)
    every: list[Function] = []
    for other, text in files.items():
        if other != path:
            every += functions_in(other, text)
    changed = functions_in(path, "\n".join(lines))
    own = next(it for it in changed if it.begin == function.begin)
    return any(Sizes([*every, *changed], files.values()).findings(own))


def try_sizes(tally: Tally, files: Files) -> None:
    """Each size that is far too large is refused, at each growth."""
    for path, text in files.items():
        for it in functions_in(path, text):
            for growth in growths_in(it):
                place = f"{path}:{growth.line + 1}: {it.name}"
                for size in larger_sizes(growth):
                    why = f"{place}: a growth by {size} is not refused"
                    tally.check(is_refused(files, it, growth, size), why)


def try_bodies(tally: Tally, files: Files, ways: dict[str, str], plants: Plants) -> None:
    """Each library has one of these bodies, and the first of them all: each is refused."""
    names = list(ways)
    for k, (crate, (function, value)) in enumerate(sorted(plants.items())):
        path = function.path
        for way in names if k == 0 else [names[k % len(names)]]:
            text = planted(files[path], function, ways[way], value)
            _, wrong = faults_in({**files, path: text})
            is_found = any(it.startswith(f"{path}:") for it in wrong)
            tally.check(is_found, f"{crate}, {function.name}: {way}: not refused")


@Test(
    "memory-faults",
    "out of memory and failed writes are made only where an allocation or a write failed",
)
def try_memory_faults(tally: Tally, options: Options) -> None:
    paths = sorted(glob.glob("crates/elf*/src/**/*.rt", root_dir=TOP, recursive=True))
    files = {path: read_text(path) for path in paths}
    forms, wrong = faults_in(files)
    tally.count(sum(forms.values()) + len(wrong), wrong)
    tally.note(", ".join(f"{count} {form}" for form, count in forms.most_common()))
    try_sizes(tally, files)
    bodies = read_text("cases/memory_faults.bodies")
    ways: dict[str, str] = dict(re.findall(r"^== (.*)\n((?:(?!== ).*\n)*)", bodies, re.M))
    of_writes = {name: body for name, body in ways.items() if name.endswith("*")}
    out_of_memory, failed_writes = plants_in(files)
    try_bodies(tally, files, ways, out_of_memory)
    try_bodies(tally, files, of_writes, failed_writes)
