"""`tools/test linked-runs`: programs run the same by ld and by elfmap: of C, of C++, and of C over
Debian's klibc, which has the objects of its archive that it needs. Each executable is the
reference's, and `check`, readelf and eu-elflint accept it. The kernel maps its pages with the
permissions that the sections ask for. Objects that went through `rewrite` give the same executable
and the same map, byte for byte. Objects without unneeded symbols give the same executable."""

import os
import re
from typing import NamedTuple

from .reference import answer
from .requirements import KLIBC
from .suite import Tally, Test
from .tree import PROGRAM, RULES, Options, ending
from .workshop import FLAGS, Workshop

C_FLAGS = [*FLAGS, "-fno-asynchronous-unwind-tables"]
CXX_FLAGS = [
    *(it for it in C_FLAGS if it != "-fcommon"),
    "-fno-exceptions",
    "-fno-rtti",
    "-fno-threadsafe-statics",
    "-fno-gnu-unique",
]
KLIBC_FLAGS = [
    "-D__KLIBC__=2",
    "-D__KLIBC_MINOR__=0",
    "-D_BITSIZE=64",
    "-nostdinc",
    "-iwithprefix",
    "include",
    "-isystem",
    "/usr/lib/klibc/include/arch/x86_64",
    "-isystem",
    "/usr/lib/klibc/include/bits64",
    "-isystem",
    "/usr/lib/klibc/include/",
]
CRT0 = f"{os.path.dirname(KLIBC)}/crt0.o"
BY_LD = ["ld", "-m", "elf_x86_64", "-static", "-o", "by-ld"]


class Program(NamedTuple):
    """A program: the compiler and its words, the sources, the ways to compile them, and the
    entry."""

    compiler: str
    flags: list[str]
    sources: list[str]
    ways: list[str]
    entry: str


SEVERAL = "-ffunction-sections -fdata-sections"
PROGRAMS = [
    Program(
        "gcc",
        C_FLAGS,
        ["calls_main.c", "calls_other.c"],
        ["-O0", "-O1", "-O2", f"-O3 {SEVERAL}", "-Os"],
        "start",
    ),
    Program(
        "g++",
        CXX_FLAGS,
        ["stack_main.cc", "stack_other.cc"],
        ["-O0", "-O2", "-Os -ffunction-sections"],
        "start",
    ),
    Program("gcc", C_FLAGS + KLIBC_FLAGS, ["library.c"], ["-O0", "-O2"], "_start"),
]
# Where each program is placed, and with which page; the kernel maps by pages of 0x1000.
PLACES = (("0x400000", "0x1000"), ("0x10000000", "0x200000"))
KERNEL_PAGE = 0x1000
# The flags of sections that ask for a permission (gABI chapter 4, sh_flags).
SHF_WRITE = 1
SHF_EXECINSTR = 4


def with_klibc(shop: Workshop, objects: list[str]) -> list[str]:
    """These objects, and those of klibc's archive that ld takes."""
    shop.wanted("ar", "x", KLIBC)
    traced = shop.wanted(*BY_LD, "-e", "_start", "-t", "-t", CRT0, *objects, KLIBC)
    taken = re.findall(r"^\(.*\)(.*)$", traced, re.M)
    return [CRT0, *objects, *dict.fromkeys(taken)]


def complaint(shop: Workshop, words: list[str]) -> str:
    """What a command says against the executable; nothing if it is content."""
    ended = shop.run(*words, "by-elfmap")
    if not ended.returncode and not ended.stderr:
        return ""
    return f"{os.path.basename(words[0])} {ending(ended)}"


def difference(shop: Workshop, objects: list[str], entry: str, base: str, page: str) -> str:
    """What the program does otherwise where elfmap links it, and what others say against the
    executable."""
    shop.wanted(*BY_LD, "-e", entry, *objects)
    shop.link(objects, base, page, entry)
    by_ld, by_elfmap = shop.answers()
    if by_ld != by_elfmap or not by_ld[1]:
        return f"by ld it is {by_ld}, by elfmap {by_elfmap}"
    words = ["--base", base, "--page", page, "--entry", entry, "--rules", RULES]
    files = {it: shop.content(it) for it in [*objects, RULES]}
    if answer(["link", *words, *objects], files) != (0, shop.content("by-elfmap"), b""):
        return "the reference implementation links it otherwise"
    rewritten = shop.rewritten(objects)
    changed = (
        shop.changes(["link", *words], objects, rewritten)
        or shop.changes(["map", *words], objects, rewritten)
        or shop.changes(["link", *words], objects, shop.stripped(objects))
    )
    if changed:
        return changed
    readers = ([PROGRAM, "check"], ["readelf", "-lW"], ["eu-elflint", "--quiet"])
    complaints = (complaint(shop, it) for it in readers)
    return next(filter(None, complaints), "")


def pages_of(shop: Workshop, objects: list[str], base: str, page: str) -> dict[int, str]:
    """The permissions of each page that the link map has, as /proc/PID/maps writes them."""
    words = ["map", "--base", base, "--page", page, *objects]
    pages = {}
    for line in shop.wanted(PROGRAM, *words).splitlines():
        words = line.split()
        if words[0] not in ("output", "common"):
            continue
        start = int(words[1], 16)
        length = int(words[2], 16)
        flags = int(words[4], 16) if words[0] == "output" else SHF_WRITE
        letters = f"r{'w' if flags & SHF_WRITE else '-'}{'x' if flags & SHF_EXECINSTR else '-'}p"
        for number in range(start // KERNEL_PAGE, -(-(start + length) // KERNEL_PAGE)):
            pages[number] = letters
    return pages


def mapped_otherwise(shop: Workshop, objects: list[str], base: str, page: str) -> str:
    """Which page of the executable the kernel maps with other permissions, or also without one."""
    shop.link(objects, base, page, "start")
    shop.wanted("chmod", "755", "by-elfmap")
    pages = pages_of(shop, objects, base, page)
    mapped = {}
    for line in shop.wanted("./by-elfmap", "word").splitlines():
        if line.endswith("]"):
            continue
        places, letters = line.split()[:2]
        start, end = (int(it, 16) // KERNEL_PAGE for it in places.split("-"))
        mapped.update(dict.fromkeys(range(start, end), letters))
    wrong = [it for it in pages | mapped if pages.get(it) != mapped.get(it)]
    kinds = set(pages.values())
    if kinds != {"r--p", "r-xp", "rw-p", "rwxp"}:
        return f"the program has only pages of the kinds {kinds}"
    return f"pages {[hex(it * KERNEL_PAGE) for it in wrong]} are mapped otherwise" if wrong else ""


@Test(
    "linked-runs",
    "programs run the same by ld and by elfmap",
    f"gcc g++ ld ar objcopy readelf eu-elflint {KLIBC}",
    "elfmap",
    family="linked",
)
def try_linked_runs(tally: Tally, options: Options) -> None:
    for program, way in [(it, way) for it in PROGRAMS for way in it.ways]:
        title = f"{' '.join(program.sources)} by {program.compiler} {way}"
        shop = Workshop(tally.new_folder(title))
        flags = [*program.flags, *way.split()]
        objects = [shop.compiled(program.compiler, it, flags) for it in program.sources]
        if program.entry == "_start":
            objects = with_klibc(shop, objects)
        for base, page in PLACES:
            wrong = difference(shop, objects, program.entry, base, page)
            tally.check(not wrong, f"{title}: {wrong}")
    shop = Workshop(tally.new_folder("pages"))
    objects = [shop.compiled("gcc", "pages_main.c", C_FLAGS)]
    for base, page in PLACES:
        wrong = mapped_otherwise(shop, objects, base, page)
        tally.check(not wrong, f"pages_main.c by pages of {page}: {wrong}")
