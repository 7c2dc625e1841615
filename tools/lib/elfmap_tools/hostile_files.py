"""`tools/test hostile-files`: files that are made to do harm, and large ones.

The cases of cases/ that have files, tables made to do harm among them (cases/hostile.txt), large
objects and large files go through the commands of the program. No call takes a second of the
processor, or asks for more than a MiB of memory, 64 KiB for each file and 128 times as many bytes
as its files have, all growths together; `check --seek` for no more than a MiB and twice as many
bytes as the tables have. Each call has a small stack. The large files have up to 4 MB, but for
sparse ones of up to 2^30 bytes, whose tables are far from the header, and of more than 2^32. The
answers of large objects are the reference implementation's. Last come the families of families.py,
whose bounds are smaller."""

import os
import random
from collections.abc import Callable, Iterator
from functools import partial
from itertools import chain, product
from typing import Any

import generated

from . import failing_library
from .chance_files import hash_content, note_content
from .failing_library import environment, report_of
from .families import try_families
from .library import BOTH, PACKERS
from .reference import (
    ALLOC,
    DYNSYM,
    HASH,
    NOTE,
    PROGBITS,
    SECTION_HEADER,
    STRTAB,
    SYMBOL,
    File,
    answer,
    edited,
    group,
    number_words,
    object_file,
    object_of,
    record,
    relocations,
    section,
    symbol,
    text,
    with_index_table,
)
from .suite import Tally, Test
from .tree import PROGRAM, T, Answer, Options, answer_of, run, write
from .written_cases import Case, every_case

# The bounds: processor seconds; and bytes of memory for a call, and times as many as its files
# have.
MOST_SECONDS = 1.0
LEAST_MEMORY = 1 << 20
MOST_MEMORY = 128
SEEKING_MEMORY = 2
# What each file that is read whole takes before its first byte, however short it is.
FIRST_ROOM = 1 << 16
STACK = 1 << 20
LITTLE = "little"
GLOBAL = 0x10
WEAK = 0x20
IN_GROUP = 0x206
ABOUT = "tables made to do harm, and large files: answers, time, memory, and a small stack"
# What may be on the output of a case: the bytes themselves, or what holds of them.
Right = bytes | Callable[[bytes], bool]


def row(command: str, *files: bytes, out: Right | None = None) -> Case:
    """A case of files f0, f1 and so on, with the answer of the reference implementation, if none is
    given, or what holds of its output."""
    names = [f"f{k}" for k in range(len(files))]
    contents = {**dict(zip(names, files)), "r": b"2 pc 4 signed\n"}
    case = Case([*command.split(), *names], [f"{it}={it}" for it in contents])
    case.files = {name: bytearray(content) for name, content in contents.items()}
    if callable(out):
        case.holds = out
    elif out is not None:
        case.out = out
    else:
        right = answer(case.words, contents)
        assert right
        case.status, case.out, case.err = right
    return case


def loaded(names: list[bytes], hash_words: bytes, strings: bytes = b"") -> bytes:
    """Dynamic symbols of these names with their strings, sections 2 and 1, and a hash table of
    these words, section 3."""
    strings = strings or b"\0" + b"".join(it + b"\0" for it in names[1:])
    at = 1
    entries = bytes(24)
    for it in names[1:]:
        entries += record(LITTLE, SYMBOL, st_name=at if it else 0, st_info=GLOBAL)
        at += len(it) + 1
    of_strings = section(b".dynstr", STRTAB, strings)
    of_symbols = section(b".dynsym", DYNSYM, entries, ALLOC, 8, 24, 0, 1)
    return object_file(
        [of_strings, of_symbols, section(b".hash", HASH, hash_words, ALLOC, 4, 4, 1)]
    )


# ---- objects of many sections, and hash tables of many symbols

# The commands that an object of many sections goes through.
OF_OBJECTS = [
    "check",
    "check --seek",
    "show",
    "rewrite",
    "map --base 0x400000 --page 0x1000",
    "map --rules r --base 0 --page 1",
]


def is_grouped(position: int) -> bool:
    """Whether the plain section at this position is a member of a group: of the one by the last
    digit of its position."""
    return position % 3 != 0


def parts_of_many() -> tuple[list[Any], list[Any]]:
    """The sections and symbols of an object: ten groups and their symbols, 280 plain sections with
    a symbol for most, relocations, and notes."""
    chance = random.Random("many")
    plain: list[Any] = []
    for k in range(280):
        flags = IN_GROUP if is_grouped(k) else 6
        plain.append(text(bytes(k % 7), flags, b".text.%d" % k, 2 ** (k % 5)))
    groups: list[Any] = []
    fields: list[Any] = []
    for k in range(10):
        groups.append(group([10 + p for p in range(k, 280, 10) if is_grouped(p)], k + 1))
        name = b".rela.text.%d" % k
        fields.append(relocations([(0, 1 + k % 20, 2, k)], 14 + 7 * k, name))
    notes = b"".join(note_content(chance, LITTLE) for _ in range(40))
    symbols = [symbol(b"signature %d" % k, 10 + k, WEAK) for k in range(10)]
    symbols += [symbol(b"name%d" % k, 10 + k) for k in range(270)]
    return [*groups, *plain, *fields, section(b".note", NOTE, notes, ALLOC, 4)], symbols


def many_rows() -> Iterator[Case]:
    """Objects of a few hundred sections, groups of many members, an index table, notes and a hash
    table of a thousand symbols."""
    sections, symbols = parts_of_many()
    file = object_file(sections, symbols)
    indexed = with_index_table(object_of(sections, symbols))
    for it in (file, indexed):
        for command in OF_OBJECTS:
            yield row(command, it)
    yield row("map --base 0 --page 1", file, indexed)
    names = [b""] + [b"symbol %d" % k for k in range(999)]
    for buckets in (1, 37, 100):
        yield row("show", loaded(names, hash_content(LITTLE, names, buckets)))
    others = names[:500] + names[501:] + [b"other"]
    yield row("show", loaded(names, hash_content(LITTLE, others, 37)))
    # A symbol in a section whose index is kept in the index table.
    far = object_file([section(b"", PROGBITS)] * 65300, [symbol(b"far", 65299), symbol(b"near", 3)])
    yield row("rewrite", far, out=far)
    yield row("check --seek", far, out=b"ok %d 65305 0\n" % len(far))


# ---- large files, for which the reference is too slow


def rows_of_layout() -> Iterator[Case]:
    """An alignment for which the file would be too long."""
    file = edited(object_file([text(b"")]), ("sh_addralign", 1, 2**63))
    yield Case(["rewrite", "f"], ["f=f"], 1, b"", b"too long\n", files={"f": bytearray(file)})


def rows_of_groups() -> Iterator[Case]:
    """Groups of one signature, each of one section; and as many as may be, without members."""
    count = 32760
    sections = [group([count + k]) for k in range(count)] + [text(b"", IN_GROUP, b"f")] * count
    file = object_file(sections, [symbol(b"f", count)])
    yield row("rewrite", file, out=file)
    lines = [b"output 0x0 0x0 bits 0x6 f", b"member 0x0 0x0 0 %d" % count]
    lines += [b"discarded 0 %d" % k for k in range(count + 1, 2 * count)]
    lines += [b"name 0x0 strong f", b""]
    yield row("map --base 0 --page 1", file, out=b"\n".join(lines))
    file = object_file([group([])] * 65535, [symbol(b"f", None, WEAK)])
    yield row("rewrite", file, out=file)
    yield row("map --base 0 --page 1", file, out=b"name 0x0 zero f\n")


def rows_of_names() -> Iterator[Case]:
    """Symbols of one name as long as half of the file, or of its tails: what is written has the
    name once."""

    def has_name_once(output: bytes) -> bool:
        return output.count(b"n" * 2000000) == 1 and len(output) < 4001000

    for make in (generated.one_long_name, generated.tails_of_one_name):
        yield row("rewrite", bytes(make(4000000).bytes()), out=has_name_once)


def rows_of_chains() -> Iterator[Case]:
    """A chain through all symbols, all of one name, and one that comes back."""
    count = 130000
    words = number_words(LITTLE, 1, count, count - 1, 0, 0, *range(1, count - 1))
    file = loaded([b""] * count, words, b"\0a\0")
    yield row("check", file, out=b"ok %d 7 0\n" % len(file))
    yield row("show", file, out=lambda output: b"\nhash 3 1 130000\n" in output)
    bucket = File(file).section(3).sh_offset + 8
    circle = edited(file, ((3, 16, 4), count - 1))
    yield row("show", circle, out=lambda output: b"\nrefused 3 68 %d\n" % bucket in output)


def large_rows() -> Iterator[Case]:
    """Files of up to 4 MB whose tables cost the most."""
    return chain(rows_of_layout(), rows_of_groups(), rows_of_names(), rows_of_chains())


# ---- what a call takes


def measured(folder: str, call: Callable[..., T]) -> tuple[T, float, int]:
    """The answer of a call, the processor seconds of this process's children, and the bytes asked
    for, which the library counts."""
    before = sum(os.times()[2:4])
    answer = call(env=environment(folder, "count 1 nothing"))
    seconds = sum(os.times()[2:4]) - before
    counts = dict(line.split() for line in report_of(folder))
    return answer, seconds, int(counts["asked"])


def most_memory(case: Case) -> int:
    """How much memory a case may ask for."""
    # A file may be named by several words.
    places = {place: name for place, _, name in (it.partition("=") for it in case.needs) if name}
    named = [it for it in case.words if it in places]
    lengths = sum(len(case.files[places[it]]) for it in named)
    if "--seek" in case.words:
        return LEAST_MEMORY + SEEKING_MEMORY * lengths
    return LEAST_MEMORY + MOST_MEMORY * lengths + FIRST_ROOM * len(named)


def wrong_answer(case: Case, found: Answer) -> str:
    """What is wrong with what the program answers in a case."""
    status, out, err = found
    if case.holds:
        is_right = (status, err) == (0, b"") and case.holds(out)
        return "" if is_right else f"status {status}, {out[-80:]!r}"
    # The text of an error is compared where the case has one.
    is_same_error = err == case.err or status > 1 and not case.err
    if (status, out) == (case.status, case.out) and is_same_error:
        return ""
    return f"{(status, out[:80], err[:80])}, and not {(case.status, case.out[:80], case.err[:80])}"


def wrong_with(case: Case, folder: str) -> str:
    """What is wrong with a case: how long it takes, how much memory, or what it answers."""
    call = partial(case.found, "prlimit", f"--stack={STACK}", PROGRAM)
    found, seconds, memory = measured(folder, call)
    if seconds > MOST_SECONDS:
        # A machine with much to do beside it may take longer once.
        seconds = measured(folder, call)[1]
    if seconds > MOST_SECONDS:
        return f"it takes {seconds:.2f} s"
    most = most_memory(case)
    if memory > most:
        return f"it asks for {memory} bytes, and not for {most} at most"
    return wrong_answer(case, found)


# ---- sparse files

# Where the section headers begin: beyond 24 bits, beyond 29, and so that the file is as long as one
# may be.
FAR = (2**24 + 8, 2**29 + 8, 2**30 - 136)
# Lengths of which the files are longer than one may be. Of the last one rest the 64 bytes of a
# header modulo 2^32, and modulo 2^31.
TOO_LONG = (2**30 + 1, 2**32 + 64)


def too_long(tally: Tally) -> None:
    """Sparse files of a header and zeros, which are sought in."""
    path = f"{tally.folder}/f"
    for length in TOO_LONG:
        write(path, object_file([])[:64])
        os.truncate(path, length)
        ended, _, memory = measured(tally.folder, partial(run, PROGRAM, "check", "--seek", path))
        found = answer_of(ended)
        right = (1, b"refused 1 1073741824\n", b"")
        is_right = found == right and memory <= LEAST_MEMORY
        tally.check(is_right, f"{length} bytes: {found}, and not {right}; {memory}")


def put_far(path: str, order: str, at: int) -> None:
    """Writes a sparse file of a header, far from it two section headers, and a name table of one
    byte after them."""
    own = object_file([], order=order)[:64]
    header = edited(own, ("e_shoff", at), ("e_shnum", 2), ("e_shstrndx", 1))
    fields = {"sh_type": STRTAB, "sh_offset": at + 128, "sh_size": 1, "sh_addralign": 1}
    with open(path, "wb") as it:
        it.write(header)
        it.seek(at + 64)
        it.write(record(order, SECTION_HEADER, **fields))
        it.truncate(at + 136)


def far_tables(tally: Tally) -> None:
    """Sparse files whose tables are far from the header."""
    path = f"{tally.folder}/f"
    for order, at in product((LITTLE, "big"), FAR):
        put_far(path, order, at)
        right = b"ok %d 2 0\n" % (at + 136)
        bounds = {"check": LEAST_MEMORY + MOST_MEMORY * at, "check --seek": LEAST_MEMORY}
        for command, most in bounds.items():
            call = partial(run, PROGRAM, *command.split(), path)
            ended, _, memory = measured(tally.folder, call)
            what = f"{command} of a table at {at}, {order}: {ended.stdout!r}, and not {right!r}"
            is_right = ended.stdout == right and memory <= most
            tally.check(is_right, f"{what}; {memory} of {most} bytes")


# It looks at the time of the processor, which other work on it lengthens.
@Test(
    "hostile-files",
    ABOUT,
    f"{PACKERS} prlimit valgrind",
    f"elfmap {BOTH}",
    alone=True,
    family="fuzz",
)
def try_hostile_files(tally: Tally, options: Options) -> None:
    failing_library.make(tally.folder)
    of_cases = (it for it in every_case() if it.needs)
    for number, it in enumerate(chain(of_cases, many_rows(), large_rows())):
        why = wrong_with(it, tally.folder)
        tally.check(not why, f"row {number}, {it}: {why}")
    far_tables(tally)
    too_long(tally)
    try_families(tally)
