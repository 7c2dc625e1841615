"""Linkers. An object is linked by `-r`, and is refused or not; the files of a link become a program
without libraries, whose table says which definitions were taken."""

import os

from adapters.elfmap import version_of
from elf_conformance import linked
from elf_conformance.adapter import Adapter, Problem, Ran, Reading
from elf_conformance.running import contents


class Linker(Adapter):
    """A linker by its command and the package of Debian that has it."""

    about = "links objects"
    orders = frozenset({"little"})
    types = frozenset({1})
    sets = frozenset({"rules", "readings", "hostile", "generated", "links"})

    def __init__(self, name: str, command: str, package: str, *words: str) -> None:
        self.name = name
        self.package = package
        self.command = command
        self.words = (command,)
        self.more = words
        self.version_words = (command, "--version")

    def call(self, problem: Problem, folder: str) -> Ran:
        """Links the files to a program, or one file by -r."""
        is_link = problem.set == "links"
        own = ("-static", "-e", "start") if is_link else ("-r",)
        self.words = (self.command, *self.more, *own, "{files}", "-o", "{out}")
        return super().call(problem, folder)

    def reading(self, ran: Ran, folder: str) -> Reading | None:
        """What the table of the program says."""
        return linked.table(contents(f"{folder}/out")) if os.path.exists(f"{folder}/out") else None


class Elfmap(Linker):
    """elfmap link, which writes the program to its output, by relocation rules of its own
    format."""

    sets = frozenset({"links"})

    def version(self) -> str:
        """The version of the program."""
        return version_of(super().version())

    def call(self, problem: Problem, folder: str) -> Ran:
        """Links the files."""
        with open(f"{folder}/rules", "w", encoding="ascii") as it:
            it.write("1 abs 8 wrap\n24 pc 8 wrap\n")
        place = ("--base", "0x400000", "--page", "0x1000", "--entry", "start")
        self.words = (self.command, "link", *place, "--rules", "{folder}/rules", "{files}")
        return Adapter.call(self, problem, folder)

    def reading(self, ran: Ran, folder: str) -> Reading | None:
        """What the table of the program says."""
        return linked.table(ran.out)


TOOLS: list[Adapter] = [
    Linker("ld", "ld", "binutils", "--no-warn-rwx-segments", "-z", "noexecstack"),
    Linker("gold", "ld.gold", "binutils"),
    Linker("lld 14", "ld.lld-14", "lld-14"),
    Linker("lld 19", "ld.lld-19", "lld-19"),
    Linker("mold", "mold", "mold"),
    Elfmap("elfmap link", os.environ.get("ELFMAP", "elfmap"), ""),
]
