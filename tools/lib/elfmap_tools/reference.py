"""The reference implementation (reference/), as the tools call it: written in Python from the
rules' words in docs/RULES.md alone. Its modules have no types, so what they answer gets its type
here. And small objects and files, made by their parts."""

from collections.abc import Callable, Mapping, Sequence
from typing import Any, cast

import executable
import image
import link
import objects
import show
import tables
from objects import Value, kept, record
from records import DYNAMIC, HEADER, PROGRAM_HEADER, RELOCATION, SECTION_HEADER, SYMBOL, File
from show import name_of, parts, signed
from tables import ENTRY_SIZE, elf_hash, entries_before_null, is_section, notes, padded, symbols

from .tree import Answer

# The rule that is broken, and where.
Broken = tuple[int, int]
# An edit of a file: the place, and the number.
Edit = tuple[Any, ...]
laid: Callable[[Any], bytes] = objects.laid
string: Callable[[bytes, int], bytes] = objects.string
NULL, PROGBITS, SYMTAB, STRTAB, RELA, HASH, DYNAMIC_SECTION, NOTE, NOBITS, REL = range(10)
DYNSYM = 11
GROUP = 17
SYMTAB_SHNDX = 18
LOAD = 1
WRITE = 1
ALLOC = 2
EXEC = 4
INFO_LINK = 0x40
IN_GROUP = 0x200
UNDEF = 0
ABS = 0xFFF1
COMMON = 0xFFF2
XINDEX = 0xFFFF

# The names of the rules of images.
RULE_NAMES: list[str] = [rule.__name__.upper() for _, rule in image.RULES]
# The first rule that is broken, and where: by a file as an image or as an object, and by the table
# in a section.
verdict: Callable[[bytes], Broken | None] = image.verdict
object_verdict: Callable[[bytes], Broken | None] = objects.verdict
table_verdict: Callable[[Any, int], Broken | None] = tables.verdict
# What `elfmap check` and `elfmap show` print.
check: Callable[[bytes], str] = image.check
shown: Callable[[bytes], str] = show.show
# What `elfmap rewrite` prints on standard error, and what it writes; None where the reference
# leaves it open.
rewritten: Callable[[bytes], tuple[str, bytes] | None] = objects.rewrite


def mapped(contents: Sequence[bytes], base: str, page: str, rules: bytes | None = None) -> str:
    """The lines of `elfmap map`, by a file of rules if one is given."""
    given = None if rules is None else link.rules_of(rules)
    return str(link.map_lines(contents, int(base, 0), int(page, 0), given))


def entries_of(contents: Sequence[bytes]) -> list[str]:
    """The names of the files, of letters alone, that an executable may begin at."""
    _, it = link.validated(contents, 0x400000, 0x1000)
    # One that is refused has no addresses.
    if not hasattr(it, "at"):
        return []
    found: list[str] = []
    for name in it.entries:
        _, kind = link.value_of(it, it.at, it.common_at, name)
        if kind != "zero" and name.isalpha():
            found.append(name.decode("ascii"))
    return found


def parsed(words: Sequence[str]) -> tuple[dict[str, str], list[str]]:
    """The options of a command with what follows each, and the names of its files."""
    options: dict[str, str] = {}
    names: list[str] = []
    rest = iter(words[1:])
    for it in rest:
        if it.startswith("--"):
            options[it] = next(rest) if it != "--seek" else ""
        else:
            names.append(it)
    return options, names


def answer(words: Sequence[str], files: Mapping[str, bytes]) -> Answer | None:
    """What elfmap answers, called with these words on files by their names; None where the
    reference leaves it open."""
    options, names = parsed(words)
    contents = [files[it] for it in names]
    rules = files.get(options.get("--rules", ""))
    if words[0] == "map":
        lines = mapped(contents, options["--base"], options["--page"], rules)
        return int(lines.startswith(("refused ", "file "))), lines.encode("latin1"), b""
    if words[0] == "link":
        base = int(options["--base"], 0)
        page = int(options["--page"], 0)
        entry = options["--entry"].encode()
        refusal, file = executable.answer(contents, base, page, link.rules_of(rules), entry)
        return int(bool(refusal)), file, refusal.encode("latin1")
    if words[0] == "rewrite":
        found = rewritten(contents[0])
        return (int(bool(found[0])), found[1], found[0].encode()) if found else None
    said = shown(contents[0]) if words[0] == "show" else check(contents[0]) + "\n"
    return int(verdict(contents[0]) is not None), said.encode("latin1"), b""


def number_words(order: str, *numbers: int) -> bytes:
    """Numbers of four bytes."""
    return b"".join(it.to_bytes(4, cast(Any, order)) for it in numbers)


def section(
    name: bytes,
    type: int,
    body: Any = b"",
    flags: int = 0,
    align: int = 1,
    entsize: int = 0,
    link: int | None = None,
    info: int = 0,
) -> Any:
    """A section. The body is bytes, the size of one without, the entries of relocations, or the
    flags and members of a group."""
    return Value(
        name=name,
        type=type,
        flags=flags,
        addr=0,
        align=align,
        entsize=entsize,
        link=link,
        info=info,
        body=body,
    )


def symbol(
    name: bytes,
    section: int | None,
    info: int = 0x10,
    value: int = 0,
    size: int = 0,
    reserved: int = UNDEF,
    other: int = 0,
) -> Any:
    """A symbol in the section at this position, or of this reserved index."""
    return Value(
        name=name,
        info=info,
        other=other,
        value=value,
        size=size,
        section=section,
        reserved=reserved,
    )


def object_of(
    sections: Sequence[Any], symbols: Sequence[Any] = (), order: str = "little", osabi: int = 0
) -> Any:
    """An object of these sections and symbols."""
    return Value(
        order=order,
        osabi=osabi,
        abi=0,
        machine=62,
        flags=0,
        sections=list(sections),
        symbols=list(symbols),
    )


def object_file(
    sections: Sequence[Any], symbols: Sequence[Any] = (), order: str = "little"
) -> bytes:
    """The file of an object, in its canonical layout: after its own sections .symtab, .strtab and
    .shstrtab."""
    return laid(object_of(sections, symbols, order))


def with_index_table(o: Any) -> bytes:
    """The file of an object with an index table, which its symbols don't need."""
    indexes = bytes(4 + 4 * len(o.symbols))
    o.sections.append(section(b".symtab_shndx", SYMTAB_SHNDX, indexes, 0, 4, 4))
    return edited(laid(o), ("sh_link", len(o.sections), len(o.sections) + 1))


def relocations(
    entries: list[tuple[int, int, int, int]],
    target: int,
    name: bytes = b".rela.text",
    flags: int = 0,
) -> Any:
    """A section of relocations of the one at this position: of each entry its offset, symbol, kind
    and addend."""
    return section(name, RELA, entries, flags, 8, 24, info=target)


def group(members: list[int], signature: int = 1, flags: int = 1) -> Any:
    """A group of the sections at these positions."""
    return section(b".group", GROUP, (flags, members), 0, 4, 4, info=signature)


def text(
    content: bytes = b"\xc3", flags: int = ALLOC | EXEC, name: bytes = b".text", align: int = 1
) -> Any:
    """A section of bytes, which is code if nothing else is said."""
    return section(name, PROGBITS, content, flags, align)


def record_at(f: Any, field: str, index: list[int]) -> Any:
    """The header, or the section or program header of this index, that has a field."""
    if not index:
        return f.header
    return f.section(*index) if field.startswith("sh_") else f.segment(*index)


def edited(file: bytes, *edits: Edit) -> bytes:
    """A file with fields set: of each edit the place and the number. A place is a field of the
    header by its name, one of a section or program header by its name and index, or a triple of a
    section (0 for the file), an offset in its content, and a width. All places are those of the
    file before any edit."""
    f = File(file)
    new = bytearray(file)
    for name, *rest, number in edits:
        if isinstance(name, tuple):
            section, at, width = name
            at += f.section(section).sh_offset if section else 0
        else:
            record = record_at(f, name, rest)
            at = record.at(name)
            width = record.layout[name][1]
        new[at : at + width] = number.to_bytes(width, f.order)
    return bytes(new)
