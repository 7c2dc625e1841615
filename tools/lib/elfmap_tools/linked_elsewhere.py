"""`tools/test linked-elsewhere`: programs of other machines run the same by their ld and by elfmap.
A program reads numbers through addresses and differences of each kind that data have; code there
reaches what is elsewhere by kinds that no rule says, so the addresses that it needs are beside
it."""

from .requirements import RUN_BY_QEMU
from .suite import Tally, Test
from .tree import TOP, Options
from .workshop import SOURCES, Workshop

COMMANDS = " ".join(
    ["gcc", *(f"{target}-as {target}-ld qemu-{qemu}" for qemu, target in RUN_BY_QEMU.items())]
)
OBJECTS = ["elsewhere.o", "elsewhere_data.o"]


def assemble(shop: Workshop, machine: str, target: str) -> None:
    """Assembles the program for a machine, whose name is a macro in the source."""
    macros = ["-E", "-P", "-undef", f"-D{machine}", "-x", "assembler-with-cpp"]
    for it in OBJECTS:
        source = f"{SOURCES}/{it.removesuffix('.o')}.S"
        shop.wanted("gcc", *macros, "-o", "source.s", source)
        shop.wanted(f"{target}-as", "source.s", "-o", it)


@Test(
    "linked-elsewhere",
    "programs of other machines run the same",
    commands=COMMANDS,
    crates="elfmap",
    family="linked",
)
def try_linked_elsewhere(tally: Tally, options: Options) -> None:
    for machine, target in RUN_BY_QEMU.items():
        shop = Workshop(tally.new_folder(machine))
        assemble(shop, machine, target)
        place = ["-Ttext-segment=0x400000", "-e", "start"]
        shop.wanted(f"{target}-ld", *place, *OBJECTS, "-o", "by-ld")
        shop.link(OBJECTS, "0x400000", "0x10000", "start", f"{TOP}/rules/{machine}.rules")
        ends = [it[:2] for it in shop.answers(f"qemu-{machine}")]
        tally.same(f"{machine}: by ld and by elfmap it", ends, 2 * [(42, b"hello\n")])
