"""`tools/test instructions`: counts the instructions of each command on generated files
(bench/generated.py), and compares the counts with the numbers in bench/instructions, which
`--store` stores (docs/PERFORMANCE.md).

A row is a command and its input. It fails if its count is more than PERCENT above its number, or
has none; and so do a number without a row, and a command of `elfmap --help` without one. valgrind
counts (its tool callgrind). It interprets the program, so the same run always has the same count.
The program runs in its own folder, with relative names, the same environment, and the same routines
of the C library on every processor. With another version of the C library or of valgrind the counts
are slightly different."""

import fcntl
import os
import re
import shutil
import subprocess

import generated

from .suite import Tally, Test, flag
from .tree import PROGRAM, TOP, Options, read_bytes, read_text, said, write

STORED = f"{TOP}/bench/instructions"
HEAD = (
    "# The instructions of each command and input. "
    "`tools/test instructions --store` writes this file.\n"
)
PERCENT = 3
LONGEST = 300
PLACE = ["--base", "0x400000", "--page", "0x1000"]
BY_RULES = ["--rules", "RULES"]
PIPE = "/dev/stdin"
PIPE_LENGTH = 1 << 20
# The arguments of each command; its files follow. RULES and ENTRY are replaced by those of the
# input.
COMMANDS = {
    "check": ["check"],
    "check of a pipe": ["check", PIPE],
    "check --seek": ["check", "--seek"],
    "show": ["show"],
    "rewrite": ["rewrite"],
    "map": ["map", *PLACE],
    "map --rules": ["map", *PLACE, *BY_RULES],
    "link": ["link", *PLACE, "--entry", "ENTRY", *BY_RULES],
}
# Each input, its length in bytes, and the commands that run on it. What goes through a pipe has at
# most PIPE_LENGTH bytes.
ROWS: list[tuple[generated.Make, int, list[str]]] = [
    (
        generated.scattered_sections,
        1000000,
        ["check", "check of a pipe", "check --seek", "show", "rewrite"],
    ),
    (generated.distinct_names, 640000, ["show", "rewrite"]),
    (generated.relocations_in_order, 1280000, ["show", "rewrite"]),
    (generated.groups_of_one, 680000, ["show", "rewrite"]),
    (generated.hash_chain, 640000, ["show"]),
    (generated.dynamic, 60000, ["show"]),
    (generated.notes, 240000, ["show"]),
    (generated.empty_sections_of_many_names, 1440000, ["map"]),
    (generated.commons_of_many_names, 640000, ["map"]),
    (generated.definitions_and_relocations, 2000000, ["map", "map --rules", "link"]),
    (generated.falling_relocations, 500000, ["map --rules", "link"]),
]
# The C library chooses its routines by the processor and its caches. These features of processors
# are switched off. The last comma has to be there: without it the library reads beyond the end of
# the list.
FEATURES = """
AVX512F AVX512VL AVX2 AVX BMI1 BMI2 LZCNT MOVBE RTM ERMS FSRM
AVX_Fast_Unaligned_Load Fast_Unaligned_Load Fast_Unaligned_Copy
""".split()
TUNABLES = [
    "glibc.cpu.hwcaps=" + "".join(f"-{it}," for it in FEATURES),
    "glibc.cpu.x86_data_cache_size=32768",
    "glibc.cpu.x86_shared_cache_size=1048576",
    "glibc.cpu.x86_non_temporal_threshold=786432",
]
ENVIRONMENT = {"LC_ALL": "C", "GLIBC_TUNABLES": ":".join(TUNABLES)}
VALGRIND = [
    shutil.which("valgrind") or "valgrind",
    "--tool=callgrind",
    "--callgrind-out-file=/dev/null",
]


def written(folder: str, make: generated.Make, length: int) -> list[str]:
    """The names of the files of an input, which it writes below a folder, with a file of rules
    beside them."""
    files = make(length)
    names: list[str] = []
    os.mkdir(f"{folder}/{make.__name__}")
    for number, file in enumerate(files if isinstance(files, list) else [files]):
        names.append(f"{make.__name__}/{number:02}.o")
        write(f"{folder}/{names[-1]}", file.bytes())
    write(f"{folder}/{make.__name__}/rules", generated.rules_of(make))
    return names


def input_of(path: str | None) -> int:
    """An empty input, or a pipe that has a whole file before it is read, so that the same reads
    return the same lengths."""
    if path is None:
        return os.open(os.devnull, os.O_RDONLY)
    source, target = os.pipe()
    fcntl.fcntl(target, fcntl.F_SETPIPE_SZ, PIPE_LENGTH)
    os.set_blocking(target, False)
    with open(target, "wb") as pipe:
        pipe.write(read_bytes(path))
    return source


def counted(folder: str, command: str, make: generated.Make, names: list[str]) -> int:
    """The instructions of a command on the files of an input."""
    own = {"RULES": f"{make.__name__}/rules", "ENTRY": generated.entry_of(make)}
    words = [own.get(it, it) for it in COMMANDS[command]]
    is_piped = PIPE in words
    piped = f"{folder}/{names[0]}" if is_piped else None
    with open(input_of(piped), "rb") as source:
        ended = subprocess.run(
            [*VALGRIND, "./program", *words, *([] if is_piped else names)],
            cwd=folder,
            env=ENVIRONMENT,
            stdin=source,
            stdout=subprocess.DEVNULL,
            stderr=subprocess.PIPE,
            timeout=LONGEST,
        )
    found = re.findall(rb"^==\d+== Collected : (\d+)$", ended.stderr, re.M)
    if ended.returncode or len(found) != 1:
        what = f"{command}: {make.__name__} ended with status {ended.returncode}"
        raise SystemExit(f"{what}: {ended.stderr[:300]!r}")
    return int(found[0])


def stored_counts() -> dict[str, int]:
    """The stored numbers, by their rows."""
    found: dict[str, int] = {}
    for line in read_text(STORED).splitlines():
        if not line.startswith("#"):
            count, row = line.split(maxsplit=1)
            found[row] = int(count)
    return found


def compare(tally: Tally, row: str, count: int, stored: int) -> None:
    """A count is hardly above its stored number."""
    what = f"{row}: {count:,}, {abs(count / stored - 1):.1%}"
    is_well = count * 100 <= stored * (100 + PERCENT)
    tally.check(is_well, f"{what} above the stored {stored:,}")
    if count * 100 < stored * (100 - PERCENT):
        tally.note(f"{what} below the stored {stored:,}; --store keeps that")


def commands_of_help() -> list[str]:
    """The commands that `elfmap --help` lists."""
    listed = said(PROGRAM, "--help").stdout.partition("Commands:\n")[2].partition("\n\n")[0]
    return re.findall(r"^  (\w+) ", listed, re.M)


@Test(
    "instructions",
    "the instructions of each command, beside the stored numbers",
    commands="valgrind",
    crates="elfmap",
    options=(flag("store", "store the new numbers"),),
)
def try_instructions(tally: Tally, options: Options) -> None:
    shutil.copy(PROGRAM, f"{tally.folder}/program")
    counts: dict[str, int] = {}
    for make, length, commands in ROWS:
        names = written(tally.folder, make, length)
        for it in commands:
            counts[f"{it}: {make.__name__}"] = counted(tally.folder, it, make, names)
    if options.store:
        write(STORED, HEAD + "".join(f"{count:10} {row}\n" for row, count in counts.items()))
    stored = stored_counts()
    for row, count in counts.items():
        if row in stored:
            compare(tally, row, count, stored[row])
        else:
            tally.fail(f"{row}: {count:,}; no number is stored")
    without_row = set(stored) - set(counts)
    tally.check(not without_row, f"stored numbers without a row: {without_row}")
    listed = commands_of_help()
    lacking = set(listed) - {COMMANDS[it][0] for _, _, commands in ROWS for it in commands}
    is_whole = listed and not lacking
    tally.check(is_whole, f"commands of --help without a row: {lacking or 'none is listed'}")
    tally.note(f"{sum(counts.values()):,} in {len(counts)} rows")
