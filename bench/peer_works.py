"""The rows of bench/peers: a work of elfmap, the programs that do the same work, and the goal.

In a command FILES is the input, OUTPUT a file that it writes, and FLOOR the program of bench/run
that only reads its file."""

from typing import NamedTuple

# On one thread, and without a hash of what they write.
LINKERS = [
    "ld.bfd --build-id=none",
    "ld.gold --build-id=none --no-threads",
    "ld.lld-14 --build-id=none --threads=1",
    "ld.lld-19 --build-id=none --threads=1",
    # Without --no-fork its work is that of another process, which nobody waits for.
    "mold --build-id=none --no-threads --no-fork",
]
ENTRY = "a_name_as_long_as_those_that_compilers_make_of_templates_and_their_000000"
LINKED = [f"{it} -e {ENTRY} FILES -o OUTPUT" for it in LINKERS]
# As the executables of `link`, these have no symbol table.
STRIPPED = [f"{it} -s -e {ENTRY} FILES -o OUTPUT" for it in LINKERS]
COPIED = [
    "objcopy FILES OUTPUT",
    "llvm-objcopy FILES OUTPUT",
    "ld.gold --no-threads -r FILES -o OUTPUT",
    "ld.lld-14 --threads=1 -r FILES -o OUTPUT",
    "ld.lld-19 --threads=1 -r FILES -o OUTPUT",
]
SYMBOLS = ["readelf -sW FILES", "eu-readelf -s FILES", "llvm-readelf -s FILES"]
RELOCATIONS = ["readelf -rW FILES", "eu-readelf -r FILES", "llvm-readelf -r FILES"]
PLACE = "--base 0x400000 --page 0x1000 --rules RULES"
LINK = f"link {PLACE} --entry {ENTRY} FILES"
# The status by which a program that validates files says that it found a fault: it did its work.
FAULT = {"eu-elflint": 1}
# As much memory as the largest of the linkers takes, in MiB.
WARM = 768


class Work(NamedTuple):
    """A row: what elfmap does, its words, the commands of its peers, the most that elfmap may take
    of the seconds of the fastest of these, and the input: files of bench/run, or LIBRARY, of which
    the title has the name and the length."""

    title: str
    own: str
    peers: list[str]
    goal: float
    files: str
    # Whether the peers write a file. elfmap then writes one too.
    writes: bool = False
    # Whether elfmap has the memory settings of the script ./elfmap.
    is_tuned: bool = False
    # So many MiB are touched before each run.
    warm: int = 0


WORKS = [
    Work(
        "`link` of 64 objects of 1,000,000 names and as many relocations",
        LINK,
        LINKED,
        0.6,
        "named/*.o",
        writes=True,
        warm=WARM,
    ),
    Work(
        "the same, beside linkers that write no symbol table either",
        LINK,
        STRIPPED,
        0.6,
        "named/*.o",
        writes=True,
        warm=WARM,
    ),
    Work(
        "`map --rules` of these objects, beside their link",
        f"map {PLACE} FILES",
        LINKED,
        0.65,
        "named/*.o",
        writes=True,
        warm=WARM,
    ),
    Work(
        "`rewrite` of 1,000,000 symbols",
        "rewrite FILES",
        COPIED,
        0.33,
        "symbols.o",
        writes=True,
    ),
    Work(
        "`rewrite` of 32,000 functions",
        "rewrite FILES",
        COPIED,
        0.25,
        "functions.o",
        writes=True,
    ),
    Work(
        "`rewrite` of 1,000,000 relocations",
        "rewrite FILES",
        COPIED,
        0.5,
        "references.o",
        writes=True,
    ),
    Work("`show` of 1,000,000 symbols", "show FILES", SYMBOLS, 0.1, "symbols.o"),
    Work("`show` of 1,000,000 relocations", "show FILES", RELOCATIONS, 0.1, "relocations"),
    Work(
        "`check` of 64,007 sections",
        "check FILES",
        ["eu-elflint FILES", "readelf -S FILES"],
        0.25,
        "functions.o",
    ),
    Work(
        "`check` of a library (LIBRARY)",
        "check FILES",
        ["FLOOR whole FILES"],
        1.05,
        "LIBRARY",
    ),
    Work(
        "`check` of this library, with large pages",
        "check FILES",
        ["FLOOR whole FILES"],
        0.55,
        "LIBRARY",
        is_tuned=True,
    ),
    Work(
        "`check --seek` of this library",
        "check --seek FILES",
        ["eu-elflint FILES"],
        0.07,
        "LIBRARY",
    ),
]


def commands() -> list[str]:
    """The commands that the peers are, each once."""
    firsts = (peer.split()[0] for work in WORKS for peer in work.peers)
    return [it for it in dict.fromkeys(firsts) if it != "FLOOR"]
