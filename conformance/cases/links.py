"""Links: objects of one to three files, the first of which has a table of addresses as its entry
point. Each row of the table refers to a name; what it leads to says which definition was taken."""

import executable
import link

from elf_conformance.build import (
    ABS,
    ALLOC,
    COMMON,
    GLOBAL,
    GROUP,
    IN_GROUP,
    PROGBITS,
    RELA,
    WEAK,
    WRITE,
    Elf,
    words,
    xwords,
)
from elf_conformance.linked import FIRST, table

from .case import LinkMaker, single

PLACE = (0x400000, 0x1000)
# The relocations of x86-64 that are used: an address, and one relative to its place.
KINDS = [(1, "abs", 8, "wrap"), (24, "pc", 8, "wrap")]
ADDRESS = 1
RELATIVE = 24
DATA = {"sh_flags": ALLOC | WRITE, "sh_addralign": 8}
# A name that is defined: its tag of eight bytes, and its binding.
Definition = tuple[bytes, bytes, int]
SENTENCES = {
    "two_definitions": (
        "gABI",
        "When the link editor combines several relocatable object files, it does not allow "
        "multiple definitions of STB_GLOBAL symbols with the same name.",
    ),
    "undefined_name": (
        "profile",
        "The standard does not say that a link with an undefined name is refused.",
    ),
}


def asking(*names: bytes, weak: tuple[bytes, ...] = (), relative: bool = False) -> bytes:
    """The object with the table: a row for each name."""
    it = Elf()
    bits = 2 ** len(names) - 1 if relative else 0
    head = b"TAB" + bytes([len(names)]) + bits.to_bytes(4, "little")
    it.section(PROGBITS, head + bytes(8 * len(names)), b".data.table", **DATA)
    start = (b"start", {"st_info": GLOBAL + 1, "st_shndx": 1, "st_size": FIRST})
    rows = [(name, {"st_info": WEAK if name in weak else GLOBAL}) for name in names]
    symbols = it.symbols([start, *rows])
    kind = RELATIVE if relative else ADDRESS
    content = b"".join(
        xwords("little", FIRST + 8 * k, (k + 2) * 2**32 + kind, 0) for k in range(len(names))
    )
    shape = {"sh_link": symbols, "sh_info": 1, "sh_entsize": 24, "sh_addralign": 8}
    it.section(RELA, content, b".rela.data.table", **shape)
    return it.file()


def defining(*definitions: Definition, commons: tuple[tuple[bytes, int], ...] = ()) -> bytes:
    """An object that defines names, each by its tag, and has commons of these sizes."""
    it = Elf()
    it.section(PROGBITS, b"".join(tag for _, tag, _ in definitions), b".data", **DATA)
    rows = [
        (name, {"st_info": binding + 1, "st_shndx": 1, "st_value": 8 * k, "st_size": 8})
        for k, (name, _, binding) in enumerate(definitions)
    ]
    rows += [
        (name, {"st_info": GLOBAL + 1, "st_shndx": COMMON, "st_value": 8, "st_size": size})
        for name, size in commons
    ]
    rows.sort(key=lambda it: it[1]["st_info"] >= GLOBAL)
    it.symbols(rows)
    return it.file()


def in_group(signature: bytes, name: bytes, tag: bytes, flags: int = 1) -> bytes:
    """An object with a group of one section, which defines a name."""
    it = Elf()
    it.section(GROUP, words("little", flags, 2), b".group", sh_entsize=4, sh_addralign=4)
    shape = {"sh_flags": ALLOC | WRITE | IN_GROUP, "sh_addralign": 8}
    it.section(PROGBITS, tag, b".data." + name, **shape)
    own = {"st_shndx": 2, "st_size": 8}
    rows = [(signature, {"st_info": WEAK + 1, **own})]
    rows += [(name, {"st_info": WEAK + 1, **own})] if name != signature else []
    symbols = it.symbols(rows)
    it.fields[0] |= {"sh_link": symbols, "sh_info": 1}
    return it.file()


def linking(function: LinkMaker) -> LinkMaker:
    """Adds the link of these files, with the answer of the second implementation."""
    files = function()
    refused, it = link.validated(files, *PLACE, KINDS, b"start")
    name = function.__name__.replace("_", "-")
    more: dict[str, object] = {"answer": "accepts", "reading": {}}
    if refused:
        _, rule, file, index, _ = refused.split()
        own = dict(link_rules())[int(rule)]
        point, sentence = SENTENCES[own]
        place = {"file": int(file), "symbol": int(index)}
        more = {"answer": "refuses", "refused": {"rule": int(rule), "name": own, **place}}
        more |= {"part": "chapter 4, Symbol Table", "sentence": sentence, "point": point}
    else:
        made = executable.executable(it)
        more["reading"] = table(made) or {}
    single("links", f"4-symbol-table/link-{name}", function, files, **more)
    return function


def link_rules() -> list[tuple[int, str]]:
    """The rules of the link by their numbers."""
    return [(number, rule.__name__) for number, rule in link.LINK_RULES]


@linking
def global_after_weak() -> list[bytes]:
    """A weak definition comes first, and a global one after it: the global one is taken."""
    weak = defining((b"a", b"weak one", WEAK))
    return [asking(b"a"), weak, defining((b"a", b"global 1", GLOBAL))]


@linking
def weak_after_global() -> list[bytes]:
    """A global definition comes first, and a weak one after it: the global one is taken."""
    weak = defining((b"a", b"weak one", WEAK))
    return [asking(b"a"), defining((b"a", b"global 1", GLOBAL)), weak]


@linking
def two_weak_definitions() -> list[bytes]:
    """Two weak definitions: the first one is taken."""
    first = defining((b"a", b"weak one", WEAK))
    return [asking(b"a"), first, defining((b"a", b"weak two", WEAK))]


@linking
def two_global_definitions() -> list[bytes]:
    """Two global definitions of one name: the link is refused."""
    first = defining((b"a", b"global 1", GLOBAL))
    return [asking(b"a"), first, defining((b"a", b"global 2", GLOBAL))]


@linking
def no_definition() -> list[bytes]:
    """A global name is defined in no file: the link is refused."""
    return [asking(b"a", b"b"), defining((b"a", b"global 1", GLOBAL))]


@linking
def weak_name_without_a_definition() -> list[bytes]:
    """A weak name that is defined in no file has the value zero."""
    return [asking(b"a", b"w", weak=(b"w",)), defining((b"a", b"global 1", GLOBAL))]


@linking
def weak_name_with_a_definition() -> list[bytes]:
    """A weak reference is bound to a global definition."""
    return [asking(b"w", weak=(b"w",)), defining((b"w", b"global 1", GLOBAL))]


@linking
def common_and_global() -> list[bytes]:
    """A common symbol and a global definition: the definition is taken."""
    common = defining(commons=((b"c", 8),))
    return [asking(b"c"), common, defining((b"c", b"global 1", GLOBAL))]


@linking
def common_after_weak() -> list[bytes]:
    """A weak definition and a common symbol: the common is taken, and is zeros."""
    common = defining(commons=((b"c", 8),))
    return [asking(b"c"), defining((b"c", b"weak one", WEAK)), common]


@linking
def weak_after_common() -> list[bytes]:
    """A common symbol and a weak definition: the common is taken, and is zeros."""
    common = defining(commons=((b"c", 8),))
    return [asking(b"c"), common, defining((b"c", b"weak one", WEAK))]


@linking
def two_commons() -> list[bytes]:
    """Two common symbols of one name, of 8 and of 64 bytes, and a third of another name: they have
    room side by side."""
    first = defining(commons=((b"c", 8), (b"d", 16)))
    return [asking(b"c", b"d"), first, defining(commons=((b"c", 64),))]


@linking
def local_symbols_of_one_name() -> list[bytes]:
    """A local symbol of the name in another file is not taken for a global one."""
    local = defining((b"a", b"local 1 ", 0), (b"b", b"global b", GLOBAL))
    return [asking(b"a", b"b"), local, defining((b"a", b"global 1", GLOBAL))]


@linking
def comdat_groups_of_one_signature() -> list[bytes]:
    """Two COMDAT groups of one signature: the first one stays."""
    first = in_group(b"g", b"g", b"group 1 ")
    return [asking(b"g"), first, in_group(b"g", b"g", b"group 2 ")]


@linking
def comdat_groups_of_two_signatures() -> list[bytes]:
    """Two COMDAT groups of two signatures stay both; the weak name that both define is that of the
    first."""
    first = in_group(b"g", b"n", b"group 1 ")
    return [asking(b"g", b"h", b"n"), first, in_group(b"h", b"n", b"group 2 ")]


@linking
def groups_that_are_no_comdat() -> list[bytes]:
    """Two groups of one signature without the flag COMDAT stay both: of the weak names the first
    one is taken."""
    first = in_group(b"g", b"n", b"group 1 ", 0)
    return [asking(b"g", b"n", b"m"), first, in_group(b"g", b"m", b"group 2 ", 0)]


@linking
def relative_to_the_place() -> list[bytes]:
    """A relocation that is relative to its place."""
    both = defining((b"a", b"global a", GLOBAL), (b"b", b"global b", GLOBAL))
    return [asking(b"a", b"b", relative=True), both]


@linking
def absolute_symbol() -> list[bytes]:
    """A symbol of an absolute value, which no address of the program changes."""
    it = Elf()
    it.symbols([(b"abs", {"st_info": GLOBAL, "st_shndx": ABS, "st_value": 0x1234})])
    return [asking(b"abs"), it.file()]


@linking
def hidden_symbol_of_another_file() -> list[bytes]:
    """A hidden symbol is bound within a program."""
    it = Elf()
    it.section(PROGBITS, b"hidden 1", b".data", **DATA)
    own = {"st_info": GLOBAL + 1, "st_shndx": 1, "st_other": 2, "st_size": 8}
    it.symbols([(b"h", own)])
    return [asking(b"h"), it.file()]


@linking
def symbol_in_a_section_without_bits() -> list[bytes]:
    """A symbol in a section without bits, which is zeros."""
    it = Elf()
    it.nobits(64, b".bss", **DATA)
    it.symbols([(b"z", {"st_info": GLOBAL + 1, "st_shndx": 1, "st_value": 32, "st_size": 8})])
    return [asking(b"z"), it.file()]


@linking
def names_that_are_the_ends_of_others() -> list[bytes]:
    """Names that share bytes in the string table: `here` and `there`."""
    both = defining((b"there", b"is there", GLOBAL), (b"here", b"is here ", GLOBAL))
    return [asking(b"here", b"there"), both]
