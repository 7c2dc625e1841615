"""`tools/test laws`: bytes of files changed by chance. What the library for C says of each copy
agrees with itself, by the laws of bindings/c/laws.c."""

import os
import re

from .dump import c_lines
from .library import BOTH, PACKERS, SOURCES, WARNINGS, packed
from .suite import Tally, Test, by_chance
from .tree import PROCESSORS, Options, Texts, by_cc, said, side_by_side, wanted, write
from .written_cases import case_files

# As many files as laws.c takes, and as long.
MOST = 256
LONGEST = 1 << 16
# How cc makes files of a few lines of C.
MADE = [
    "-c -O1",
    "-c -O0 -ffunction-sections",
    "-x c++ -c -O1 -g",
    "-nostdlib -static -Wl,-e,answer",
    "-shared -nostdlib -fPIC -Wl,--hash-style=sysv -Wl,-soname,answer.so",
]
ABOUT = (
    "bytes of files changed; what the library for C says of each copy agrees with itself "
    "(bindings/c/laws.c)"
)


def sound_files() -> list[bytes]:
    """The files of the cases that are accepted, those of many different bytes first."""
    found: list[bytes] = []
    for it in case_files():
        if 64 <= len(it) <= LONGEST and c_lines(it)[0] == "verdict kept":
            found.append(it)
    return sorted(found, key=lambda it: (-len(set(it)), it))


def shares(count: int) -> list[int]:
    """How many copies each processor tries."""
    more = count % PROCESSORS
    return [count // PROCESSORS + (1 if k < more else 0) for k in range(PROCESSORS)]


def count_share(tally: Tally, ran: Texts) -> None:
    """Counts what one run of laws.c counted."""
    counts = r"^(\d+) of them are accepted\n(\d+) passed, (\d+) failed$"
    found = re.search(counts, ran.stdout, re.M)
    is_whole = found and ran.returncode in (0, 1)
    tally.check(is_whole, f"a run ended with {ran.returncode}:\n{ran.stdout}")
    if not found or not is_whole:
        return
    failed = int(found[3])
    lines = re.findall(r"^laws: (.*)$", ran.stdout, re.M)
    more = ["more of them"] * (failed - len(lines))
    tally.count(int(found[2]) + failed, lines[:failed] + more)


@Test("laws", ABOUT, commands=PACKERS, crates=BOTH, alone=True, options=by_chance(20000, "copies"))
def try_laws(tally: Tally, options: Options) -> None:
    room = tally.folder
    wanted("cc", "-O2", *WARNINGS, f"{SOURCES}/laws.c", packed(), "-o", f"{room}/laws")
    files = [by_cc(f"{room}/made-{k}", it, "answer_twice.c") for k, it in enumerate(MADE)]
    sound = sound_files()[: MOST - len(files)]
    files += [write(f"{room}/case-{k}", it) for k, it in enumerate(sound)]
    runs: list[list[str]] = []
    for k, count in enumerate(shares(options.count)):
        seed = options.seed * PROCESSORS + k
        runs.append([f"{room}/laws", str(count), str(seed), *files])
    for ran in side_by_side(lambda it: said(*it, folder=os.getcwd()), runs):
        count_share(tally, ran)
