"""`tools/test linked-like-ld`: elfmap maps a program of three C files, and ld links them by a
script made of the map's lines `output` and `common`: each output section at its address, its
members in order.

Then ld has the same sections, each live one with the same bytes, and each name with the same value;
and where the program does not fit its addresses, ld refuses it too. The files are made without what
ld edits itself: strings to be merged, and .eh_frame, which is renamed. From 2^63 on ld counts
modulo 2^64: that is left out.

Objects that went through `rewrite` give the same map, byte for byte, or the same refusal. In the
opposite order the objects bind each name to a definition of the same kind: none of them competes.
"""

from collections import Counter
from typing import NamedTuple

from .link_map import Both
from .suite import Tally, Test
from .tree import PROGRAM, RULES, Options
from .workshop import FLAGS, Workshop

PARTS = ("ld_main", "ld_part", "ld_other")
LD_FLAGS = [*FLAGS, "-fno-merge-constants", "-fno-tree-loop-distribute-patterns"]
# Without tables of frames, but for one program.
BARE = "-fno-asynchronous-unwind-tables"
IN_SECTIONS = "-ffunction-sections -fdata-sections -fasynchronous-unwind-tables"


class Program(NamedTuple):
    """A program: the compiler's options, its base and page, and whether it fits there."""

    title: str
    words: str
    base: int
    page: int
    fits: bool


PROGRAMS = (
    Program("small", f"-O2 {BARE}", 0x400000, 0x1000, True),
    Program("small, side by side", f"-O1 {BARE}", 0x10001, 1, True),
    Program("a section each, with frames", f"-Os {IN_SECTIONS}", 0x7FC00000, 0x10000, True),
    Program("small, too high", f"-O2 {BARE}", 0x80000000, 0x1000, False),
    Program("small, unoptimized, beyond 32 bits", f"-O0 {BARE}", 0x123456789000, 0x1000, False),
    Program("kernel, placed low", f"-O2 -mcmodel=kernel {BARE}", 0x1000000, 0x200000, True),
    Program("large", f"-O2 -mcmodel=large {BARE}", 0x123456789000, 0x1000, True),
)


def both_of(shop: Workshop, program: Program) -> Both:
    """The program by elfmap and by ld."""
    flags = [*LD_FLAGS, *program.words.split()]
    objects = [shop.compiled("gcc", f"{it}.c", flags) for it in PARTS]
    for it in objects:
        # ld reads .eh_frame and writes another one.
        shop.wanted("objcopy", "--rename-section", ".eh_frame=.frames", it)
    return Both(shop, objects, program.base, program.page, RULES, ["ld", "-m", "elf_x86_64"])


def kinds(shop: Workshop, names: list[str]) -> dict[str, str]:
    """What each name of these objects is bound to: a kind of definition."""
    lines = shop.wanted(PROGRAM, "map", "--base", "0x10000", "--page", "1", *names).splitlines()
    words = [it.split() for it in lines if it.startswith("name ")]
    return {name: kind for _, _, kind, name in words}


def is_refused(both: Both) -> bool:
    """Whether both refuse a program that does not fit its addresses."""
    by_elfmap = both.ruled.returncode == 1 and both.ruled.stdout.startswith(b"refused 16 ")
    by_ld = both.by_ld.returncode != 0 and b"relocation truncated to fit" in both.by_ld.stderr
    return by_elfmap and by_ld


@Test(
    "linked-like-ld",
    "the link map beside ld's link",
    commands="gcc ld objcopy",
    crates="elfmap",
    family="linked",
)
def try_linked_like_ld(tally: Tally, options: Options) -> None:
    totals = Counter[str]()
    for program in PROGRAMS:
        both = both_of(Workshop(tally.new_folder(program.title)), program)
        changed = both.shop.changes(both.words, both.names, both.shop.rewritten(both.names))
        tally.check(not changed, f"{program.title}: {changed}")
        is_alike = kinds(both.shop, both.names) == kinds(both.shop, both.names[::-1])
        tally.check(is_alike, f"{program.title}: the opposite order binds names otherwise")
        if not program.fits:
            why = f"{program.title}: it is not refused by both: {both.ends}"
            tally.check(is_refused(both), why)
            continue
        wrong = both.differences()
        tally.check(not wrong, f"{program.title}: {'; '.join(wrong)}")
        length = sum(map(len, both.map.bytes.values()))
        totals.update(sections=len(both.map.bytes), bytes=length, names=len(both.map.names))
    counts = ", ".join(f"{count} {kind}" for kind, count in totals.items())
    tally.note(f"{counts} agree with ld")
