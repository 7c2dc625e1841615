"""`tools/test linked-kinds`: each kind of rules/ beside the ld of its machine. docs/RULE_FILES.md
lists the same kinds."""

import glob
import os
import re
from typing import NamedTuple

from .link_map import Both
from .requirements import BY_LLVM, MACHINES
from .suite import Tally, Test
from .tree import PROGRAM, TOP, Options, read_text, write
from .workshop import Workshop

COMMANDS = " ".join(
    ["as ld llvm-mc-19 ld.lld-19", *(f"{target}-as {target}-ld" for target in MACHINES.values())]
)


class Tools(NamedTuple):
    """The commands of the assembler and of the linker of a machine."""

    assembler: list[str]
    linker: list[str]


# The tools of each machine but this one.
TOOLS = {machine: Tools([f"{target}-as"], [f"{target}-ld"]) for machine, target in MACHINES.items()}
for machine, (triple, emulation) in BY_LLVM.items():
    by_llvm = ["llvm-mc-19", "-filetype=obj", f"-triple={triple}"]
    TOOLS[machine] = Tools(by_llvm, ["ld.lld-19", "-m", emulation])


class Field(NamedTuple):
    """A field: the name of its kind, what it holds, `abs`, `pc` or `none`, and the number in it."""

    name: str
    form: str
    number: int


def numbers_in(width: str, admitted: str) -> tuple[int, ...]:
    """Numbers at both ends of what a field admits, or near them, as an assembler wants addends of
    32 bits; of a field that admits all, one that is long, or that assemblers and ld admit."""
    bits = 8 * int(width)
    near = 0x100 if width == "4" else 0
    ends = {
        "signed": (near - 2 ** (bits - 1), 2 ** (bits - 1) - 1 - near),
        "unsigned": (0, 2**bits - 1 - near),
    }
    return ends.get(admitted, (0x123456789ABCDEF if bits == 64 else -5,))


def put_kinds(
    shop: Workshop, assembler: list[str], fields: list[Field], addends: list[int]
) -> None:
    """Assembles an object of these fields with these addends."""
    lines = ["\t.data", "\t.globl fields, start, target", "\t.balign 8", "fields:"]
    for field, addend in zip(fields, addends):
        # Some assemblers have names without their beginning.
        name = re.sub("^R_(ALPHA|IA64)_", "", field.name)
        lines += [f"\t.reloc ., {name}, target + {addend}", "\t.quad 0"]
    lines += ['\t.section .far,"aw"', "start:", "\t.balign 8", "target:", "\t.quad 0", ""]
    write(f"{shop.folder}/kinds.s", "\n".join(lines))
    shop.wanted(*assembler, "kinds.s", "-o", "kinds.o")


def kinds_differ(shop: Workshop, machine: str, fields: list[Field]) -> list[str]:
    """What ld makes otherwise of an object that has these fields."""
    assembler, linker = TOOLS.get(machine, Tools(["as"], ["ld"]))
    put_kinds(shop, assembler, fields, [0] * len(fields))
    text = shop.wanted(PROGRAM, "map", "--base", "0x10000", "--page", "1", "kinds.o")
    places = {name: int(at, 16) for at, name in re.findall(r"^name (0x\w+) \S+ (\w+)$", text, re.M)}
    addends: list[int] = []
    for k, field in enumerate(fields):
        own_place = places["fields"] + 8 * k if field.form == "pc" else 0
        addends.append(field.number - places["target"] + own_place)
    put_kinds(shop, assembler, fields, addends)
    rules = f"{TOP}/rules/{machine}.rules"
    return Both(shop, ["kinds.o"], 0x10000, 1, rules, linker).differences()


def kinds_of_page(machine: str) -> tuple[set[int], dict[int, str]]:
    """The kinds that docs/RULE_FILES.md lists for a machine, and the names of some."""
    page = read_text("docs/RULE_FILES.md")
    part = page.partition(f"(../rules/{machine}.rules)")[2].partition("\n## ")[0]
    listed: set[int] = set()
    names: dict[int, str] = {}
    for numbers, words in re.findall(r"^\| ([\d, ]+) \| (.*?) \|", part, re.M):
        own = [int(it) for it in numbers.split(", ")]
        listed |= set(own)
        names |= zip(own, re.findall(r"`(\w+)`", words))
    return listed, names


@Test(
    "linked-kinds",
    "each kind of rules/ beside the ld of its machine",
    commands=COMMANDS,
    crates="elfmap",
    family="linked",
)
def try_linked_kinds(tally: Tally, options: Options) -> None:
    for path in sorted(glob.glob(f"{TOP}/rules/*.rules")):
        machine = os.path.basename(path).removesuffix(".rules")
        rules = [it.split() for it in read_text(path).splitlines()]
        listed, names = kinds_of_page(machine)
        is_same = listed == {int(it[0]) for it in rules}
        tally.check(is_same, f"docs/RULE_FILES.md lists other kinds than rules/{machine}.rules")
        fields: list[Field] = []
        for kind, form, width, admitted in rules:
            if name := names.get(int(kind)):
                fields += [Field(name, form, it) for it in numbers_in(width, admitted)]
        wrong = kinds_differ(Workshop(tally.new_folder(machine)), machine, fields)
        tally.check(not wrong, f"{machine}: {'; '.join(wrong)}")
