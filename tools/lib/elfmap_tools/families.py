"""Families of lawful files that take time or memory, each by its length. `tools/test hostile-files`
runs each command on them, on files of 1/4 to 4 MB. A call keeps the bounds of bounds.py, and GROWTH
as the exponent of n from the smaller files to the larger ones."""

import math
from collections.abc import Callable

import generated

from .bounds import OF_PYTHON, SIZES, Cost, Standing, begin, instructions_of, tried
from .library import packed, shared
from .reference import File, mapped, object_verdict, table_verdict, verdict
from .shapes import Shape
from .suite import Tally
from .tree import write

# The commands that do not meet the bounds yet, by the family of files. Whoever cures one takes its
# line away.
NOT_YET: list[tuple[str, tuple[str, ...], Standing]] = [
    ("hash_tables_over_tails", ("lint --tables", "explain"), Standing(0.2)),
    ("sections_far_apart", ("check --seek",), Standing(0, 1)),
]
STANDINGS = {(family, command): it for family, commands, it in NOT_YET for command in commands}
# The greatest exponent of n, from the smaller files to the larger ones.
GROWTH = 1.1
# The commands that read any file, and those that read an object.
VIEWS = ["view", "view --all", "view --json"]
READING = ["check", "check --seek", "show", "lint --tables", "explain", "gaps", *VIEWS]
OF_OBJECTS = [*READING, "rewrite", "map", "map --rules", "link", "lint --object"]

# ---- the families


def one_symbol_and_hash_tables(length: int) -> Shape:
    """Hash tables over one symbol, whose name is half of the file."""
    return Shape(name=length // 2, hashes=length // 2 // 84)


def sixteen_hash_tables(length: int) -> Shape:
    """Sixteen hash tables over symbols of one name, which is half of the file."""
    return Shape(name=length // 2, hashes=16, symbols=length // 2 // 88)


def hash_tables_over_sixteen_symbols(length: int) -> Shape:
    """Hash tables over sixteen symbols of one name, which is half of the file."""
    return Shape(name=length // 2, hashes=length // 2 // 144, symbols=16)


def hash_tables_over_tails(length: int) -> Shape:
    """Sixteen hash tables over symbols whose names are the tails of one name."""
    return Shape(name=length // 2, hashes=16, symbols=length // 2 // 88, sharing="tails")


def symbols_of_one_name(length: int) -> Shape:
    """Symbols of one name, which is half of the file."""
    return Shape(name=length // 2, symbols=length // 48)


def symbols_of_tails(length: int) -> Shape:
    """Symbols whose names are the tails of one name, which is half of the file."""
    return Shape(name=length // 2, symbols=length // 48, sharing="tails")


def symbols_of_two_equal_names(length: int) -> Shape:
    """Symbols of two equal names in turns, each a quarter of the file."""
    return Shape(name=length // 4, symbols=length // 48, sharing="turns")


def sections_of_one_name(length: int) -> Shape:
    """Sections of one name, which is half of the file."""
    return Shape(name=length // 2, sections=length // 130, long="sections")


def sections_of_tails(length: int) -> Shape:
    """Sections whose names are the tails of one name, which is half of the file."""
    return Shape(name=length // 2, sections=length // 130, long="sections", sharing="tails")


def groups_of_one_signature(length: int) -> Shape:
    """Groups of one signature, which is half of the file."""
    return Shape(name=length // 2, groups=length // 272)


def relocations_of_one_name(length: int) -> Shape:
    """Sections of relocations of symbols of one name, which is half of the file."""
    return Shape(name=length // 2, symbols=length // 226, relocations=length // 226)


def sections_far_apart(length: int) -> Shape:
    """Sections of one byte, aligned so that they take 2^30 bytes of a canonical layout."""
    count = length // 65 - 60
    return Shape(sections=count, align=int(math.log2((2**30 - 2 * length) // (count + 1))))


# Each with the commands that accept it.
FAMILIES: dict[Callable[[int], Shape], list[str]] = {
    one_symbol_and_hash_tables: READING,
    sixteen_hash_tables: READING,
    hash_tables_over_sixteen_symbols: READING,
    hash_tables_over_tails: READING,
    symbols_of_one_name: OF_OBJECTS,
    symbols_of_tails: OF_OBJECTS,
    symbols_of_two_equal_names: OF_OBJECTS,
    sections_of_one_name: OF_OBJECTS,
    sections_of_tails: OF_OBJECTS,
    groups_of_one_signature: OF_OBJECTS,
    relocations_of_one_name: OF_OBJECTS,
    sections_far_apart: OF_OBJECTS,
}

# ---- their test

# How long a file of each family is of which the reference implementation says that it is lawful.
LAWFUL = 6000
# Seconds that are too few to say how they grow, and an exponent of them for which the instructions
# are counted.
LEAST_SECONDS = 0.05
DOUBTFUL = 1.25


def growth_of(first: tuple[int, float], last: tuple[int, float]) -> float:
    """The exponent of what was taken in the bytes in and out."""
    return math.log(last[1] / first[1]) / math.log(last[0] / first[0])


def wrong_growth(folder: str, command: str, files: list[bytes], costs: list[Cost]) -> str:
    """Why a command grows too fast from the first file to the last one. If the seconds say so,
    instructions decide."""
    first = costs[0]
    last = costs[-1]
    if command in OF_PYTHON or last.is_cut or min(first.seconds, last.seconds / 2) < LEAST_SECONDS:
        return ""
    if growth_of((first.moved, first.seconds), (last.moved, last.seconds)) <= DOUBTFUL:
        return ""
    counts: list[int] = []
    for it in (files[0], files[-1]):
        path = write(f"{folder}/file", it)
        counts.append(instructions_of(folder, command, path))
    growth = growth_of((first.moved, counts[0]), (last.moved, counts[1]))
    return f"the exponent of its instructions is {growth:.2f}: {counts}" if growth > GROWTH else ""


def is_lawful(file: bytes, is_object: bool) -> bool:
    """Whether a file breaks no rule, by the reference implementation, which takes its time."""
    own = File(file)
    broken = [verdict(file), *(table_verdict(own, k) for k in range(own.section_count))]
    if any(broken):
        return False
    if not is_object:
        return True
    lines = mapped([file], "0x400000", "0x1000", generated.RULES)
    return not object_verdict(file) and not lines.startswith(("file ", "refused "))


def try_family(tally: Tally, family: str, command: str, files: list[bytes]) -> None:
    """A command on files of a family, at all sizes; one that is in NOT_YET at the first, and one of
    Python at two."""
    standing = STANDINGS.get((family, command))
    if standing:
        own = files[:1]
    else:
        own = files[:3:2] if command in OF_PYTHON else files
    costs: list[Cost] = []
    is_well = True
    for file in own:
        cost, why = tried(tally.folder, command, file, standing or Standing())
        what = f"{command} of {family}, {len(file):,} bytes"
        is_well &= tally.check(not why, f"{what}: {why}")
        costs.append(cost)
    if len(own) == len(files) and is_well:
        why = wrong_growth(tally.folder, command, own[2:], costs[2:])
        tally.check(not why, f"{command} of {family}: {why}")


def try_families(tally: Tally) -> None:
    """Each command on each family."""
    begin(tally.folder)
    shared(packed(), tally.folder)
    for make, commands in FAMILIES.items():
        family = make.__name__
        is_object = "rewrite" in commands
        tally.check(is_lawful(make(LAWFUL).file(), is_object), f"a file of {family} breaks a rule")
        files = [make(length).file() for length in SIZES]
        for command in commands:
            try_family(tally, family, command, files)
