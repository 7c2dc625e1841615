"""`tools/test failing-calls`: every call of the C library that elfmap makes, failing once.

`failing.c` refuses the Nth `malloc` or `realloc`, or fails, cuts or interrupts the Nth `open`,
`read`, `lseek`, or `write` to standard output, for an `open` also for want of memory, or fails what
follows a cut, for N from 1 until the program ends without it; all else succeeds. `is_right` says
how the program has to end. After a failure of one file none is read, sought or written; a file is
opened once, nothing is read into no space or after its end, nothing empty is written, nothing is
synchronized. No command but `show` grows after its first byte of standard output. The calls
`write`, `object` and `copy` of `tests_calls` are tried too.

By `growths` it makes the calls of the library one by one, with the Nth growth refused, and with
that and all after it: each call answers out of memory or what it answers with enough; a reading
goes on where a growth was refused, and loses nothing; what takes no memory answers as ever, and
made three times it grows as much as made not at all."""

import re
from collections.abc import Iterator
from itertools import count, product
from typing import NamedTuple

from . import failing_library
from .building import output_of
from .by_hand import BY_HAND, files_by_hand
from .chance_files import full_object
from .failing_library import environment, report_of
from .reference import verdict
from .suite import Tally, Test
from .tree import PROGRAM, RULES, Answer, Options, answer_of, run, wanted, write
from .written_cases import case_files

# A program of two files in C.
CALLER = """int callee(int);
extern int shared;
int common;
int main(void) { return callee(1) + shared + common; }
"""
CALLEE = """static int calls;
int shared = 2;
int callee(int x) { return calls += x; }
"""

# The lines of `show` on it are longer than a piece of output.
MANY = "".join(f'.section .text.f{i},"ax",@progbits\nf{i}: call g{i}\n' for i in range(500))
FAILURES = [
    ("malloc", "fail"),
    ("open", "fail"),
    ("open", "memory"),
    ("lseek", "fail"),
    ("lseek", "interrupt"),
    ("write", "nothing"),
    *product(("read", "write"), ("fail", "interrupt", "cut", "short")),
]

# The calls of `tests_calls`, which ends with an error of std's where it can't have its words or its
# file.
OWN = ("write", "object", "copy")
CALLS = output_of("tests_calls")
CHECK_ALONE = output_of("elfmap_check")
PLACE = ["--base", "0x400000", "--page", "0x1000"]
MAP = ["map", *PLACE]
LINK = ["link", *PLACE]
BY_RULES = ["--rules", RULES]
READINGS = (["check"], ["check", "--seek"], ["show"], ["rewrite"])
# How calls are counted, without a failure.
COUNT = "count 1 nothing"
# The rules of files that are validated without memory.
WITHOUT_MEMORY = range(2, 33)


class Failure(NamedTuple):
    """A call that failed: what it was, how the program ends without it and with it, and the report
    of the library."""

    what: str
    ample: Answer
    found: Answer
    report: list[str]


def ended(
    folder: str, words: list[str], call: str = "", program: str = PROGRAM
) -> tuple[Answer, list[str]]:
    """How the program ended, and what the library says of the call that failed."""
    found = run(program, *words, folder=folder, env=environment(folder, call))
    return answer_of(found), report_of(folder)


def is_right(kind: str, how: str, command: str, ample: Answer, found: Answer, offset: int) -> bool:
    """Whether the program ended as it has to, where a call of this kind failed at an offset, and as
    it ends where none does."""
    status, out, err = found
    text = ample[1]
    if how in ("cut", "bytes"):
        return found == ample
    if command in OWN and kind in ("malloc", "open"):
        if (status, out) == (1, b"") and err.startswith(b"Error: "):
            return True
    if kind == "malloc":
        # It may do without; and of `show` a beginning of the text may be written.
        begun = out == b"" or command == "show" and text.startswith(out)
        return found == ample or (status, err) == (3, b"out of memory\n") and begun
    if how == "memory":
        # The name takes none of the program, but the system may want some.
        return found == (3, b"", b"out of memory\n")
    if kind == "open":
        return status == 3 and out == b"" and bool(re.fullmatch(rb"cannot open \S+\n", err))
    if kind == "write":
        return found == (3, text[:offset], f"write failed after {offset}\n".encode())
    # What `copy` has written before a failed `read` is a beginning of the file.
    begun = out == b"" or command == "copy" and text.startswith(out) and out != text
    return begun and (status, err) == (3, f"read failed at {offset}\n".encode())


def failing(tally: Tally, words: list[str], kind: str, how: str, program: str) -> Iterator[Failure]:
    """Each call of a kind failing, one after the other, or all at once."""
    ample, _ = ended(tally.folder, words, program=program)
    for number in count(1):
        found, report = ended(tally.folder, words, f"{kind} {number} {how}", program)
        what = f"{' '.join(words)}: {kind} {number} {how}: {found}"[:300]
        if report:
            yield Failure(what, ample, found, report)
        elif found != ample:
            tally.fail(f"{what}: another answer without a failing call")
        if not report or how == "bytes":
            return


def tried(tally: Tally, words: list[str], kind: str, how: str, program: str = PROGRAM) -> None:
    """Each call of a kind failing: the program ends as it has to, and does not go on."""
    for it in failing(tally, words, kind, how, program):
        goes_on = any(line.startswith("again") for line in it.report)
        offset = int(it.report[0].split()[1])
        is_well = is_right(kind, how, words[0], it.ample, it.found, offset) and not goes_on
        tally.check(is_well, f"{it.what}, {it.report}")


def wrong_growths(ample: list[bytes], found: list[bytes]) -> str:
    """What is wrong with the lines on the calls of the library where growths were refused; nothing
    where they are right."""
    place = 0
    refused = False
    for line in found:
        call = line.partition(b" ")[0]
        is_out = line.endswith(b" out of memory")
        same: list[int] = []
        for k in range(place, len(ample)):
            if ample[k].startswith(call + b" ") if is_out else ample[k] == line:
                same.append(k)
        # What needs a call that was refused memory is not made.
        if not same or same[0] > place and not refused:
            return f"{line!r}"
        # A reading that was refused memory is tried once more, and has its line again.
        place = same[0] + (not is_out or call != b"read_to_end")
        refused = refused or is_out
    return "" if place == len(ample) or refused else "lines are missing"


def counted(tally: Tally, words: list[str], opened: int, program: str = PROGRAM) -> None:
    """How many files are opened, that no call is in vain, and that no growth comes after the first
    byte is written, but in `show`."""
    _, report = ended(tally.folder, words, COUNT, program)
    right = [f"opened {opened}", "vain 0"]
    if words[0] != "show":
        right.append("late 0")
    tally.same(" ".join(words), report[: len(right)], right)


def try_growth(tally: Tally, failure: Failure) -> None:
    """The calls of the library answer as they have to where a growth was refused."""
    sound, output, _ = failure.ample
    status, out, err = failure.found
    ample = output.split(b"\n")[:-1]
    lines = out.split(b"\n")[:-1]
    # The program ends where a growth of its own is refused, or a file can't be read.
    is_own = status == 1 and b"OutOfMemory" in err
    is_of_file = status == 3 and lines[-1:] == [b"read_to_end out of memory"]
    gave_up = is_own or is_of_file
    begun = ample[: len(lines)]
    why = wrong_growths(begun if gave_up and lines == begun else ample, lines)
    is_well = not why and (gave_up or status == sound)
    tally.check(is_well, f"{failure.what}: {why or status} {err[:100]!r}")


def refused_without_memory(tally: Tally) -> list[str]:
    """The names of files of which each breaks one of the rules that are validated without
    memory."""
    broken: dict[int, bytes] = {}
    for content in case_files():
        rule, _ = verdict(content) or (0, 0)
        broken.setdefault(rule, content)
    lacking = {*WITHOUT_MEMORY} - broken.keys()
    tally.check(not lacking, f"no case breaks {lacking}")
    return [write(f"{tally.folder}/broken-{it}", broken[it]) for it in WITHOUT_MEMORY]


def try_quiet(tally: Tally, names: tuple[str, ...]) -> None:
    """The calls that take no memory, made three times, grow as much as made not at all."""
    counts: list[tuple[Answer, list[str]]] = []
    for times in ("0", "3"):
        end, lines = ended(tally.folder, ["quiet", times, *names], COUNT, CALLS)
        # How many pages were there at once differs from run to run.
        counts.append((end, [it for it in lines if not it.startswith("peak ")]))
    (status, *_), lines = counts[0]
    is_well = counts[0] == counts[1] and status == 0 and lines[2:]
    tally.check(is_well, f"quiet {' '.join(names)}: {counts}")


def growths(tally: Tally) -> None:
    """Each growth refused of the calls of the library that need no file, and of those on the files
    by hand."""
    for names in BY_HAND:
        # A file for which capacity is asked well ahead, of 4 MB, takes its time.
        for how in ("fail",) if names == ("many_sections",) else ("fail", "rest"):
            for it in failing(tally, ["growths", "rules", *names], "malloc", how, CALLS):
                try_growth(tally, it)
    refused = ((it,) for it in refused_without_memory(tally))
    for names in [*BY_HAND, ("caller.o", "callee.o"), ("full.o",), ("/bin/true",), *refused]:
        try_quiet(tally, names)


def calls() -> Iterator[tuple[str, list[str], list[str]]]:
    """Of each call the program, the arguments, and the files among them."""
    both = ["caller.o", "callee.o"]
    broken = ["caller.o", "refused", "callee.o"]
    for name in ("call_0", "caller.o", "many.o", "full.o", "refused", "/bin/true"):
        for words in READINGS:
            yield PROGRAM, words, [name]
        yield CHECK_ALONE, ["check"], [name]
    for files in (both, ["many.o"], broken):
        yield PROGRAM, MAP, files
    for files in (both, ["full.o"]):
        yield PROGRAM, [*MAP, *BY_RULES], files
    for files in (both, ["caller.o"], broken):
        yield PROGRAM, [*LINK, "--entry", "main", *BY_RULES], files
    for call in OWN:
        for name in ("call_0", "caller.o", "full.o", "refused"):
            yield CALLS, [call], [name]


def put_files(folder: str) -> None:
    """Puts the files into a folder on which calls are made to fail."""
    for name, source in {"caller.c": CALLER, "callee.c": CALLEE, "many.s": MANY}.items():
        write(f"{folder}/{name}", source)
        words = ["-c", "-O1", "-fcommon", "-fno-pic", name, "-o", f"{name[:-2]}.o"]
        wanted("cc", *words, folder=folder)
    others = {"refused": b"no ELF file\n", "full.o": full_object(), "rules": b"2 pc 4 signed\n"}
    for name, content in {**others, **files_by_hand()}.items():
        write(f"{folder}/{name}", content)


def try_by_hand(tally: Tally, names: tuple[str, ...], entry: str) -> None:
    """Each command on files by hand, which are a link together."""
    of_link = (MAP, [*MAP, *BY_RULES], [*LINK, "--entry", entry, *BY_RULES])
    every = [[*it, name] for it in READINGS for name in names]
    every += [[*it, *names] for it in of_link]
    for words in every:
        tried(tally, words, "malloc", "fail")
        counted(tally, words, sum(it in (RULES, *names) for it in words))


@Test(
    "failing-calls",
    "every call of the C library failing once",
    commands="cc",
    crates="elfmap elfmap_check tests_calls",
    family="fuzz",
)
def try_failing_calls(tally: Tally, options: Options) -> None:
    failing_library.make(tally.folder)
    put_files(tally.folder)
    for program, words, files in calls():
        opened = len(files) + words.count(RULES)
        given = [*words, *files]
        counted(tally, given, opened, program)
        # A source that returns nothing where there is more is a file that shrank.
        shrinks = [("read", "nothing")] if "--seek" in given or "copy" in given else []
        for kind, how in [*FAILURES, *shrinks, ("read", "bytes"), ("write", "bytes")]:
            tried(tally, given, kind, how, program)
    for names, entry in BY_HAND.items():
        try_by_hand(tally, names, entry)
    growths(tally)
