"""Shapes of files: objects by a few numbers."""

from dataclasses import dataclass

import generated

# How the long names of a file share bytes: all are one; each is a tail of one; they are two equal
# ones in turns; none share any, and they differ in their ends, or in their beginnings.
SHARINGS = ("one", "tails", "turns", "ends", "beginnings")
# Whose names are long, and what the symbols are.
LONG = ("symbols", "sections", "both")
KINDS = {
    "weak": (generated.WEAK, generated.ABS),
    "undefined": (generated.WEAK, 0),
    "common": (generated.GLOBAL, generated.COMMON),
}
SHORT = b"f\0"
DIGITS = 7


@dataclass(frozen=True)
class Shape:
    """An object: how long its long names are, and how many it has of each kind; its relocations are
    one for each section of them."""

    name: int = 1
    symbols: int = 1
    sections: int = 1
    groups: int = 0
    hashes: int = 0
    relocations: int = 0
    align: int = 0
    sharing: str = "one"
    long: str = "symbols"
    kind: str = "weak"
    is_falling: bool = False

    def named(self) -> int:
        """The most names of one kind."""
        of_symbols = self.symbols if self.long != "sections" else 0
        of_sections = self.sections + self.groups if self.long != "symbols" else 0
        return max(of_symbols, of_sections, 1)

    def size(self) -> int:
        """How long its file is, roughly."""
        several = {"turns": 2, "ends": self.named(), "beginnings": self.named()}
        strings = several.get(self.sharing, 1) * (self.name + 1 + DIGITS)
        headers = 65 * self.sections + 136 * self.groups + 89 * self.relocations
        hashes = self.hashes * (80 + 4 * self.symbols)
        return 300 + strings + 24 * self.symbols + headers + hashes

    def names(self) -> tuple[bytes, list[int]]:
        """The string table, and where the name of each position is in it."""
        name = b"n" * self.name
        positions = range(self.named())
        if self.sharing in ("ends", "beginnings"):
            numbers = (b"%0*d" % (DIGITS, k) for k in positions)
            own = [it + name if self.sharing == "beginnings" else name + it for it in numbers]
            table = b"\0".join(own) + b"\0"
            places = [1 + k * (len(name) + DIGITS + 1) for k in positions]
        elif self.sharing == "turns":
            table = (name + b"\0") * 2
            places = [1 + k % 2 * (len(name) + 1) for k in positions]
        else:
            table = name + b"\0"
            places = [1 + k % len(name) * (self.sharing == "tails") for k in positions]
        if self.is_falling:
            places.reverse()
        return b"\0" + table + SHORT, places

    def file(self) -> bytes:
        """The object: a symbol f, where an executable can begin, before all others."""
        made = generated.File()
        strings, places = self.names()
        short = len(strings) - len(SHORT)
        of_symbols = places if self.long != "sections" else [short] * self.symbols
        of_sections = places if self.long != "symbols" else [short] * (self.sections + self.groups)
        made.names = made.strings(strings)
        table = generated.symbol(short, generated.GLOBAL, generated.ABS)
        table += self.entries(of_symbols)
        symbols = made.symbols(table, made.names)
        # What tables are called.
        name = (of_sections or [short])[0]
        self.add_groups(made, symbols, name, of_sections)
        for it in of_sections[self.groups : self.groups + self.sections]:
            align = 1 << self.align
            made.section(generated.PROGBITS, b"\0", generated.ALLOC, name=it, align=align)
        self.add_tables(made, symbols, name)
        return made.bytes()

    def entries(self, places: list[int]) -> bytes:
        """The entries of the symbols whose names are at these places."""
        info, place = KINDS[self.kind]
        # A common is aligned.
        value = 1 if place == generated.COMMON else 0
        named = places[: self.symbols]
        return b"".join(generated.symbol(it, info, place, value, 1) for it in named)

    def add_groups(
        self, made: generated.File, symbols: int, name: int, of_sections: list[int]
    ) -> None:
        """Adds the groups, each of one section."""
        flags = generated.GROUPED | generated.ALLOC
        for k in range(self.groups):
            own = generated.words([1, len(made.headers) + 1])
            fields = {"link": symbols, "info": 2 + k % self.symbols, "entsize": 4, "name": name}
            made.section(generated.GROUP, own, **fields)
            made.section(generated.PROGBITS, b"", flags, name=of_sections[k])

    def add_tables(self, made: generated.File, symbols: int, name: int) -> None:
        """Adds the hash tables, and the relocations of a section of their own."""
        count = self.symbols + 2
        chain = generated.words([1, count, 1, 0, *range(2, count), 0])
        for _ in range(self.hashes):
            made.section(generated.HASH, chain, link=symbols, entsize=4, name=name)
        if not self.relocations:
            return
        field_bytes = bytes(self.relocations)
        target = made.section(generated.PROGBITS, field_bytes, generated.ALLOC, name=name)
        fields = {"link": symbols, "info": target, "entsize": 24, "name": name}
        for k in range(self.relocations):
            entry = generated.relocation(k, 2 + k % self.symbols, 1)
            made.section(generated.RELA, entry, generated.INFO_LINK, **fields)
