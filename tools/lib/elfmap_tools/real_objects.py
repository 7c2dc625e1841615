"""`tools/test real-objects`: objects of this machine and its compilers through `rewrite`, beside
readelf and eu-elflint. What is written has the same sections; readelf lists the same in it, and
eu-elflint finds no more."""

import re
import tempfile
from collections import Counter
from collections.abc import Iterator
from typing import Any

from .machine_files import count_ends, some
from .object_files import Place, content_of, objects_of
from .reference import GROUP, NOBITS, REL, RELA, File, kept, string
from .suite import Tally, Test, number
from .tree import (
    PROGRAM,
    Options,
    compiled,
    ending,
    files_below,
    read_bytes,
    run,
    side_by_side,
    write,
)

SOURCES = ("main.c", "part.c", "templates.cc", "many.s")
# Several ways of compiling, with debugging sections and many sections among them.
WAYS = ("-O0", "-O2 -g", "-Os -ffunction-sections -fdata-sections", "-O2 -fPIC -fcommon")
BUILDS = [
    f"{compiler} {words} -c {name} -o {name}.{compiler}.{way}.o"
    for way, words in enumerate(WAYS)
    for compiler in ("gcc", "clang")
    for name in SOURCES
]
ABOUT = "objects of this machine and its compilers through `rewrite`, beside readelf and eu-elflint"


def kept_sections(data: bytes) -> Iterator[tuple[int, tuple[Any, ...]]]:
    """The sections that an object keeps: of each its index, and name, type, flags, address,
    alignment, entry size and content."""
    f = File(data)
    names = f.content(f.name_table) if f.name_table else b"\0"
    for i in kept(f):
        it = f.section(i)
        # Entries and words hold indexes: readelf lists these.
        content = it.sh_size if it.sh_type in (NOBITS, RELA, REL, GROUP) else f.content(i)
        plain = (it.sh_type, it.sh_flags, it.sh_addr, it.sh_addralign, it.sh_entsize)
        yield i, (string(names, it.sh_name), *plain, content)


def listed(path: str, data: bytes) -> list[str]:
    """What readelf lists of symbols, relocations and groups, with positions for section indexes and
    without offsets; symbol 0 and the heads of tables left out, since an object without a symbol
    table gets one."""
    position = {index: place for place, (index, _) in enumerate(kept_sections(data))}

    def moved(it: re.Match[str]) -> str:
        return f"{it[1]}@{position.get(int(it[2]), 'none')}"

    lines: list[str] = []
    output = run("readelf", "-W", "-s", "-r", "-g", path).stdout.decode("utf-8", "replace")
    for words in map(str.split, output.splitlines()):
        if words and words[0] not in ("Symbol", "Num:", "0:"):
            # Of a symbol: a relocation's line has no colon after its first number.
            line = re.sub(r"^(\d+:(?: \S+){5} )(\d+)(?= |$)", moved, " ".join(words))
            line = re.sub(r"(\[) ?(\d+)(?=\])", moved, line)
            lines.append(re.sub(r" at offset 0x[0-9a-f]+", "", line))
    return lines


def findings(path: str) -> Counter[str]:
    """What eu-elflint finds, without numbers."""
    lines = run("eu-elflint", "--gnu-ld", path).stdout.decode("utf-8", "replace").splitlines()
    return Counter(re.sub(r"\d+", "N", it) for it in lines if it != "No errors")


def wrong_rewrite(before: str, after: str) -> str:
    """What is wrong with what was written for an object."""
    data = read_bytes(before)
    written = read_bytes(after)
    if run(PROGRAM, "check", after).returncode:
        return "what is written is refused"
    if run(PROGRAM, "rewrite", after).stdout != written:
        return "what is written is not itself when it is written again"
    if [it for _, it in kept_sections(data)] != [it for _, it in kept_sections(written)]:
        return "other sections"
    if listed(before, data) != listed(after, written):
        return "readelf lists other symbols, relocations or groups"
    more = findings(after) - findings(before)
    return f"eu-elflint finds more: {more}" if more else ""


def try_object(place: Place) -> str:
    """What became of one object: 'written', 'refused by rule N', or what is wrong."""
    path, start, _ = place
    with tempfile.TemporaryDirectory(prefix="real-objects-") as folder:
        before = write(f"{folder}/before", content_of(place))
        made = run(PROGRAM, "rewrite", before)
        refused = re.fullmatch(rb"refused (\d+) \d+\n", made.stderr)
        if made.returncode == 1 and refused and not made.stdout:
            return f"refused by rule {refused[1].decode()}"
        if made.returncode or made.stderr:
            return f"{path}({start}): rewrite {ending(made)}"
        wrong = wrong_rewrite(before, write(f"{folder}/after", made.stdout))
    return f"{path}({start}): {wrong}" if wrong else "written"


def printed(folder: str, parts: list[str]) -> tuple[int, bytes]:
    """What a program of these files prints, or the linker where it does not link them."""
    made = run("gcc", "-no-pie", *parts, "-o", f"{folder}/program")
    if made.returncode:
        return made.returncode, made.stderr
    return 0, run(f"{folder}/program").stdout


def rewritten(path: str) -> str:
    """What `rewrite` writes for a file, as a file beside it."""
    return write(f"{path}.after.o", run(PROGRAM, "rewrite", path).stdout)


def linked(folder: str) -> Iterator[str]:
    """Programs of two files that went through `rewrite`, linked and run: each prints what it
    printed before."""
    for way in range(len(WAYS)):
        parts = [f"{folder}/{name}.gcc.{way}.o" for name in SOURCES[:2]]
        own = printed(folder, parts)
        after = printed(folder, list(map(rewritten, parts)))
        if own != after or own[0]:
            yield f"a program of rewritten files prints {after}, and not {own}"


@Test(
    "real-objects",
    ABOUT,
    "gcc g++ clang readelf eu-elflint",
    "elfmap",
    alone=True,
    options=(number("count", 4000, "so many of them"),),
)
def try_real_objects(tally: Tally, options: Options) -> None:
    found: dict[str, Place] = {}
    for path in files_below("/usr/lib"):
        if path.endswith((".o", ".a")):
            for place in objects_of(path):
                found[f"{path}({place[1]})"] = place
    many = "".join(f'.section s{i},"ax"\nnop\n' for i in range(500))
    write(f"{tally.folder}/many.s", many)
    objects = [place for path in compiled(tally.folder, BUILDS) for place in objects_of(path)]
    objects += [found[it] for it in some(found, options.count)]
    count_ends(tally, side_by_side(try_object, objects), r"written|refused by rule \d+")
    tally.count(len(WAYS), linked(tally.folder))
