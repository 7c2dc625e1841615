"""Programs that are compiled and linked for the tests `linked`, by elfmap and by the `ld` of a
machine."""

import os
from functools import partial

from .tree import PROGRAM, RULES, TOP, Answer, answer_of, ending, read_bytes, run, wanted, write

SOURCES = f"{TOP}/cases/sources"
# A freestanding program, at a fixed address.
FLAGS = [
    "-fcommon",
    "-ffreestanding",
    "-fno-pic",
    "-fno-pie",
    "-fno-stack-protector",
    "-fcf-protection=none",
]


class Workshop:
    """A folder in which programs are compiled, linked and run."""

    def __init__(self, folder: str) -> None:
        self.folder = folder
        self.run = partial(run, folder=folder, timeout=60)
        self.wanted = partial(wanted, folder=folder, timeout=60)

    def content(self, name: str) -> bytes:
        """The content of a file in the folder."""
        return read_bytes(os.path.join(self.folder, name))

    def compiled(self, compiler: str, source: str, words: list[str]) -> str:
        """Compiles a file of cases/sources/: the name of the object."""
        name = source.replace(".", "-") + ".o"
        self.wanted(compiler, *words, "-c", f"{SOURCES}/{source}", "-o", name)
        return name

    def link(
        self, objects: list[str], base: str, page: str, entry: str, rules: str = RULES
    ) -> None:
        """Links objects by elfmap as the file by-elfmap."""
        place = ["--base", base, "--page", page, "--entry", entry]
        made = self.run(PROGRAM, "link", *place, "--rules", rules, *objects)
        if made.returncode:
            raise SystemExit(f"link {ending(made)}")
        write(f"{self.folder}/by-elfmap", made.stdout)

    def rewritten(self, objects: list[str]) -> list[str]:
        """What `rewrite` writes for objects, as files of the folder."""
        names: list[str] = []
        for number, it in enumerate(objects):
            made = self.run(PROGRAM, "rewrite", it)
            if made.returncode:
                raise SystemExit(f"rewrite {ending(made)}")
            names.append(f"rewritten-{number}.o")
            write(f"{self.folder}/{names[-1]}", made.stdout)
        return names

    def changes(self, words: list[str], objects: list[str], others: list[str]) -> str:
        """What `map` or `link`, with these words, does otherwise with the other objects in place of
        these: with all of them, and with the last one alone."""
        own = self.run(PROGRAM, *words, *objects)
        for given in (others, [*objects[:-1], others[-1]]):
            other = self.run(PROGRAM, *words, *given)
            if answer_of(own) != answer_of(other):
                return f"of {' '.join(given)}: {words[0]} {ending(other)}, and not {ending(own)}"
        return ""

    def stripped(self, objects: list[str]) -> list[str]:
        """Objects without the symbols that objcopy finds unneeded, as files of the folder."""
        names = [f"stripped-{number}.o" for number in range(len(objects))]
        for name, it in zip(names, objects):
            self.wanted("objcopy", "--strip-unneeded", it, name)
        return names

    def answers(self, *emulator: str) -> list[Answer]:
        """How the programs by ld and by elfmap end, and what they print."""
        programs = [f"{self.folder}/by-ld", f"{self.folder}/by-elfmap"]
        wanted("chmod", "755", *programs)
        return [answer_of(self.run(*emulator, it, "word")) for it in programs]
