"""The link map of elfmap beside what ld links with the same output sections."""

import os
from collections.abc import Iterator
from typing import Any, NamedTuple

from .reference import ALLOC, NOBITS, SYMTAB, UNDEF, File, kept, string, symbols
from .tree import PROGRAM, ending, write
from .workshop import Workshop

# What a map or a link says: names of sections, places and symbols, with what is said of each.
Facts = dict[object, object]
# Without a page size of its own ld would refuse addresses that share a page; nothing is loaded.
LD_WORDS = [
    "-static",
    "-nostdlib",
    "--no-relax",
    "--build-id=none",
    "-z",
    "max-page-size=1",
    "-z",
    "common-page-size=1",
    "-e",
    "start",
    "-T",
    "script",
    "-o",
    "by-ld",
]
# The file and the position of a section in its object.
Place = tuple[int, int]


def section_name(f: Any, header: Any) -> str:
    """The name of a section."""
    return string(f.content(f.name_table), header.sh_name).decode()


def symbols_of(f: Any) -> dict[str, tuple[int, bool]]:
    """Value and whether it is defined, for each name that isn't local."""
    tables = [(i, f.content(it.sh_link)) for i, it in f.sections() if it.sh_type == SYMTAB]
    found = ((names, it) for i, names in tables for it in symbols(f, i) if it.st_info >> 4)
    return {
        string(names, it.st_name).decode(): (it.st_value, it.st_shndx != UNDEF)
        for names, it in found
    }


class Output(NamedTuple):
    """An output section of a link map; of its members the address, the length, and the place."""

    address: int
    length: int
    has_bits: bool
    members: list[tuple[int, int, Place]]


class Map:
    """A link map of elfmap."""

    def __init__(self, text: str, files: list[Any]) -> None:
        self.outputs: list[Output] = []
        self.bytes: dict[Place, bytes] = {}
        self.commons: dict[str, str] = {}
        self.names: dict[str, tuple[str, str]] = {}
        self.title: dict[Place, str] = {}
        for number, file in enumerate(files):
            for position, index in enumerate(kept(file)):
                name = section_name(file, file.section(index))
                self.title[number, position] = name
        for line in text.splitlines():
            kind, *words = line.split()
            self.add(kind, words)

    def add(self, kind: str, words: list[str]) -> None:
        """Adds what a line says."""
        if kind == "output":
            address, length, bits = words[:3]
            self.outputs.append(Output(int(address, 16), int(length, 16), bits == "bits", []))
        elif kind == "member":
            address, length, file, position = words[:4]
            place = int(file), int(position)
            self.outputs[-1].members.append((int(address, 16), int(length, 16), place))
        elif kind == "common":
            self.commons[words[2]] = words[0]
        elif kind == "name":
            self.names[words[2]] = words[0], words[1]
        elif kind == "bytes":
            self.bytes[int(words[0]), int(words[1])] = bytes.fromhex(words[2].strip("-"))

    def script(self, names: list[str]) -> str:
        """A linker script that has the output sections at their addresses, with their members in
        order. ld places the members."""
        lines = ["SECTIONS {"]
        for number, output in enumerate(self.outputs):
            lines.append(f"  .out.{number} 0x{output.address:x} : {{")
            for _, _, place in output.members:
                lines.append(f'    "{names[place[0]]}"("{self.title[place]}")')
            lines += ["    . = .;", "  }"]
        lines += [f"  {name} = {address};" for name, address in self.commons.items()]
        return "\n".join([*lines, "}", ""])

    def own_facts(self) -> Facts:
        """What the map says of output sections, live bytes and names."""
        found: Facts = {}
        for number, it in enumerate(self.outputs):
            found[f".out.{number}"] = (it.address, it.length)
        for place, content in self.bytes.items():
            found[place] = content.hex()
        for name, (value, what) in self.names.items():
            if value != "-":
                found[name] = (int(value, 16), what != "zero")
        return found

    def facts_of(self, made: Any, own: Facts) -> Facts:
        """What ld's file says of the same, and of sections beyond that."""
        loaded: dict[str, tuple[int, Any]] = {}
        for index, header in made.sections():
            if header.sh_flags & ALLOC:
                loaded[section_name(made, header)] = index, header
        found: Facts = {name: (it.sh_addr, it.sh_size) for name, (_, it) in loaded.items()}
        for number, output in enumerate(self.outputs):
            index, header = loaded.get(f".out.{number}", (0, made.section(0)))
            content = b"" if header.sh_type == NOBITS else made.content(index)
            if output.has_bits:
                for at, size, place in output.members:
                    found[place] = content[at - output.address :][:size].hex()
        values = {**dict.fromkeys(self.names, (0, False)), **symbols_of(made)}
        found |= {name: it for name, it in values.items() if name in own}
        return found

    def differences(self, made: Any) -> Iterator[str]:
        """What ld made otherwise: output sections, the bytes of live ones, each by its file and
        position, and names."""
        own = self.own_facts()
        theirs = self.facts_of(made, own)
        for what in dict.fromkeys([*own, *theirs]):
            pair = str(own.get(what)), str(theirs.get(what))
            at = len(os.path.commonprefix(pair))
            if pair[0] != pair[1]:
                digits = f"{pair[0][at:][:40]}, of ld {pair[1][at:][:40]}"
                yield f"{what} from digit {at} on: {digits}"


class Both:
    """Objects that elfmap maps with rules, and that ld links with the same output sections: how
    both ended."""

    def __init__(
        self, shop: Workshop, names: list[str], base: int, page: int, rules: str, ld: list[str]
    ) -> None:
        files = [File(shop.content(it)) for it in names]
        words = ["map", "--base", hex(base), "--page", hex(page)]
        script = Map(shop.wanted(PROGRAM, *words, *names), files).script(names)
        write(f"{shop.folder}/script", script)
        self.names = names
        self.words = [*words, "--rules", rules]
        self.ruled = shop.run(PROGRAM, *self.words, *names)
        self.by_ld = shop.run(*ld, *LD_WORDS, *names)
        self.ends = f"map {ending(self.ruled)}; ld {ending(self.by_ld)}"
        self.shop = shop
        self.map = Map(self.ruled.stdout.decode(), files)

    def differences(self) -> list[str]:
        """What ld made otherwise, or that one of both failed."""
        if self.ruled.returncode or self.by_ld.returncode:
            return [self.ends]
        return list(self.map.differences(File(self.shop.content("by-ld"))))
