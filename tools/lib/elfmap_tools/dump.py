"""What the libraries have to say of files, by the reference implementation: the lines that
bindings/c/test.c prints, and those with which the tests of bindings/rust and bindings/python
compare. `tools/dev dump FOLDER` writes these into FOLDER: a file as K.elf, and its lines as K.txt,
K from 0; bytes as `=` and their hexadecimal digits, `-` where there are none."""

import os
from collections.abc import Iterator
from typing import Any

from .reference import (
    DYNAMIC,
    DYNAMIC_SECTION,
    DYNSYM,
    ENTRY_SIZE,
    GROUP,
    HASH,
    HEADER,
    LOAD,
    NOBITS,
    NOTE,
    NULL,
    PROGRAM_HEADER,
    REL,
    RELA,
    RELOCATION,
    SECTION_HEADER,
    SYMBOL,
    SYMTAB,
    SYMTAB_SHNDX,
    XINDEX,
    Broken,
    File,
    check,
    elf_hash,
    entries_before_null,
    is_section,
    name_of,
    notes,
    padded,
    parts,
    rewritten,
    shown,
    signed,
    string,
    symbols,
    table_verdict,
    verdict,
)
from .rules_page import by_anchor
from .tree import Options, read_bytes, write
from .written_cases import case_files

# A line for bindings/c/test.c, and one for bindings/rust and bindings/python.
Lines = tuple[str, str]
# The owner of a part by its index in the list of a file's extents, as the reference calls it: of a
# content by the section's index.
OWNERS = {"header": 0, "sections": 1, "segments": 2, "content": 3, "gap": 2**64 - 1}

# ---- the entries of tables: also of those that break a rule, as far as they lie in the file

TABLES = (SYMTAB, DYNSYM, RELA, REL, DYNAMIC_SECTION, NOTE)
OF_WORDS = (GROUP, SYMTAB_SHNDX, HASH)


def content_of(f: Any, i: int | None) -> bytes:
    """The bytes of section i; none where there is none of this index."""
    return b"" if i is None or f.section(i).sh_type in (NULL, NOBITS) else bytes(f.content(i))


def beside(f: Any, i: int) -> tuple[int | None, int | None]:
    """The sections beside which the table in section i is read, None where there is none: its index
    or symbol table, and its strings."""
    kind = f.section(i).sh_type
    link = f.section(i).sh_link
    if kind in (SYMTAB, DYNSYM):
        for k, it in f.sections():
            if it.sh_type == SYMTAB_SHNDX and it.sh_link == i:
                return k, link
        return None, link
    if kind == HASH:
        return link, f.section(link).sh_link
    return None, link if kind == DYNAMIC_SECTION else None


def symbol_lines(f: Any, i: int) -> Iterator[Lines]:
    """The lines of a symbol table: also the index of a symbol's section, and its name."""
    index_table, strings = beside(f, i)
    names = content_of(f, strings)
    words = [] if index_table is None else f.words(index_table)
    for k, it in enumerate(symbols(f, i)):
        if it.st_shndx == XINDEX and k >= len(words):
            continue
        section = words[k][1] if it.st_shndx == XINDEX else it.st_shndx
        name = string(names, it.st_name).hex()
        places = f"{section} {it.st_shndx}"
        numbers = f"{it.st_value} {it.st_size} {places} {it.st_info} {it.st_other}"
        whole = f"symbol {fields(it, SYMBOL)} {section} {name}"
        yield whole, f"symbol {i} {numbers} ={name}"


def relocation_lines(f: Any, i: int) -> Iterator[Lines]:
    """The lines of a table of relocations: their offset, addend, symbol and kind."""
    kind = f.section(i).sh_type
    for it in f.entries(i, RELOCATION, ENTRY_SIZE[kind]):
        addend = signed(it.r_addend, 64) if kind == RELA else 0
        numbers = f"{it.r_offset} {addend} {it.r_info // 2 ** 32} {it.r_info % 2 ** 32}"
        yield f"relocation {numbers}", f"relocation {i} {numbers}"


def dynamic_lines(f: Any, i: int) -> Iterator[Lines]:
    """The lines of a dynamic array: also the string at the number of an entry."""
    _, strings = beside(f, i)
    names = content_of(f, strings)
    found = entries_before_null(f, i)
    for it in f.entries(i, DYNAMIC, 16) if found is None else found:
        numbers = f"{signed(it.d_tag, 64)} {it.d_un}"
        text = string(names, it.d_un).hex() if it.d_un < len(names) else None
        whole = f"dynamic {numbers} {'none' if text is None else text}"
        yield whole, f"dynamic {i} {numbers} ={text or ''}"


def note_lines(f: Any, i: int) -> Iterator[Lines]:
    """The lines of whole notes: type, end, name and descriptor."""
    for at, end, name_size, size in notes(f, i):
        named = at + 12
        begin = named + padded(name_size)
        if begin + padded(size) > end:
            continue
        type = f.number(at + 8, 4)
        next_note = begin + padded(size) - f.section(i).sh_offset
        own = f.bytes[named : named + name_size][:-1].hex()
        descriptor = f.bytes[begin : begin + size].hex()
        whole = f"note {type} {next_note} {own} {descriptor}"
        yield whole, f"note {i} {type} ={own} ={descriptor}"


def entries(f: Any, i: int) -> Iterator[Lines]:
    """The lines of a table of each type."""
    kind = f.section(i).sh_type
    if kind in (SYMTAB, DYNSYM):
        return symbol_lines(f, i)
    if kind in (RELA, REL):
        return relocation_lines(f, i)
    return dynamic_lines(f, i) if kind == DYNAMIC_SECTION else note_lines(f, i)


def fields(record: Any, layout: Any) -> str:
    """The fields of a record."""
    return " ".join(str(getattr(record, it)) for it in layout)


# ---- for bindings/c/test.c


def by_rooms(f: Any, broken: Broken | None, wanted: int) -> list[str]:
    """The ends of the lines on a verdict by rooms: an empty one, one that is too short by one, and
    one that is as large as is wanted."""
    if broken and broken[0] < 33:
        return [f"in none {end_of(broken)}"]
    return [
        f"in none refused 0 {wanted}",
        f"in less refused 0 {wanted}",
        f"in enough {end_of(broken)}",
    ]


def end_of(broken: Broken | None) -> str:
    """The end of the line of a verdict."""
    return f"refused {broken[0]} {broken[1]}" if broken else "kept"


def loaded(f: Any, address: int) -> object:
    """The byte that the first loadable segment with this address gives it, or 'none'."""
    for it in f.segments():
        k = address - it.p_vaddr
        if it.p_type == LOAD and 0 <= k < it.p_memsz:
            return f.bytes[it.p_offset + k] if k < it.p_filesz else 0
    return "none"


def found(words: list[int], names: list[bytes], name: bytes) -> object:
    """The first symbol of this name on the chain of its bucket, or 'none': of words that may break
    a rule."""
    word = dict(enumerate(words))
    buckets = word.get(0, 0)
    chains = word.get(1, 0)
    symbol = word.get(2 + elf_hash(name) % buckets, 0) if buckets and chains == len(names) else 0
    for _ in range(chains if symbol else 0):
        if symbol == 0 or names[symbol : symbol + 1] == [name]:
            break
        symbol = word.get(2 + buckets + symbol, 0)
    return symbol if names[symbol : symbol + 1] == [name] and symbol else "none"


def found_lines(f: Any, i: int) -> Iterator[str]:
    """Of a hash table: which symbol of each name it finds."""
    linked, strings = (content_of(f, k) for k in beside(f, i))
    names: list[bytes] = []
    for at in range(0, len(linked) // 24 * 24, 24):
        names.append(string(strings, int.from_bytes(linked[at : at + 4], f.order)))
    words = [it for _, it in f.words(i)]
    for name in [*names, b"no such name"]:
        yield f"found {name.hex()} {found(words, names, name)}"


def has_linked_sections(f: Any, i: int) -> bool:
    """Whether the sections beside which a table is read are there."""
    kind = f.section(i).sh_type
    link = f.section(i).sh_link
    if kind == NOTE:
        return True
    if not is_section(f, link):
        return False
    return kind != HASH or bool(is_section(f, f.section(link).sh_link))


def word_lines(f: Any, i: int) -> Iterator[str]:
    """Of a group, an index table or a hash table: its words; and what a hash table finds."""
    for _, it in f.words(i):
        yield f"word {it}"
    if f.section(i).sh_type == HASH:
        yield from found_lines(f, i)


def table_lines(f: Any, i: int, kind: int) -> Iterator[str]:
    """Of a table whose linked sections are there: where it is and those beside it are, how many
    entries it has, and these."""
    if not has_linked_sections(f, i):
        return
    lines = list(word_lines(f, i)) if kind in OF_WORDS else [own for own, _ in entries(f, i)]
    if kind in OF_WORDS:
        count = len(f.words(i))
    elif kind in (NOTE, DYNAMIC_SECTION):
        count = len(lines)
    else:
        count = f.section(i).sh_size // ENTRY_SIZE[kind]
    places: list[str] = []
    for it in (i, *beside(f, i)):
        place = "0 0" if it is None else f"{f.section(it).sh_offset} {len(content_of(f, it))}"
        places.append(place)
    yield f"table {i} {' '.join(places)} {count} {kind} {f.bytes[5]}"
    yield from lines


def load_lines(f: Any, segment: Any) -> Iterator[str]:
    """The bytes at the ends of a segment, in the file and in memory."""
    file_size = segment.p_filesz
    memory_size = segment.p_memsz
    for k in (0, file_size - 1, file_size, memory_size - 1, memory_size):
        address = (segment.p_vaddr + k) % 2**64
        yield f"load {address} {loaded(f, address)}"


def kept_lines(f: Any) -> Iterator[str]:
    """The lines on a file that keeps the rules: its parts, its records, bytes at the ends of its
    segments in memory, and its tables."""
    for start, size, whose in parts(f):
        kind, _, index = whose.partition(" ")
        yield f"part {start} {size} {OWNERS[kind] + (int(index) if kind == 'content' else 0)}"
    tables = f"{f.header.e_phoff} {f.header.e_shoff}"
    counts = f"{f.section_count} {f.segment_count}"
    yield f"file {tables} {counts} {f.name_table} {f.bytes[5]}"
    yield f"header {f.bytes[:16].hex()} {fields(f.header, HEADER)}"
    names = [name_of(f, it) for _, it in f.sections()]
    for (_, it), name in zip(f.sections(), names):
        yield f"section {fields(it, SECTION_HEADER)} {name.hex()} {names.index(name)}"
    for it in f.segments():
        yield f"segment {fields(it, PROGRAM_HEADER)}"
    for it in f.segments():
        if it.p_type == LOAD:
            yield from load_lines(f, it)
    for i, it in f.sections():
        if it.sh_type in (*TABLES, *OF_WORDS):
            yield from table_lines(f, i, it.sh_type)


def c_lines(content: bytes) -> list[str]:
    """What the test of the library for C prints of a file."""
    f = File(content)
    broken = verdict(content)
    lines = [f"verdict {end_of(broken)}", *by_rooms(f, broken, 3 + f.section_count)]
    lines += [f"parts {it}" for it in by_rooms(f, broken, 3 * (3 + f.section_count) + 1)]
    return lines if broken else [*lines, *kept_lines(f)]


# ---- for bindings/rust and bindings/python

# Of a longer file the records alone are printed: the reference is slow.
LONG = 1 << 20


def files() -> list[bytes]:
    """The files of cases/*.txt and some of the machine's own, each once."""
    of_machine = map(read_bytes, filter(os.path.isfile, ["/bin/true"]))
    return list(dict.fromkeys([*case_files(), *of_machine]))


def record_line(word: str, record: Any, layout: Any, *parts: bytes | None) -> str:
    """The line of a record, with bytes that belong to it."""
    own = ["-" if it is None else f"={it.hex()}" for it in parts]
    return " ".join([word, fields(record, layout), *own])


def record_lines(f: Any, content: bytes) -> Iterator[str]:
    """The lines on the records of a file."""
    yield record_line("header", f.header, HEADER, content[:16])
    for i, it in f.sections():
        own = None if it.sh_type in (NULL, NOBITS) else f.content(i)
        yield record_line("section", it, SECTION_HEADER, name_of(f, it), own)
    for it in f.segments():
        own = None if it.p_type == NULL else content[it.p_offset : it.p_offset + it.p_filesz]
        yield record_line("segment", it, PROGRAM_HEADER, own)


def lines_of(content: bytes) -> list[str]:
    """The lines on a file: its refusal, or what it counts, each of its records, parts and entries,
    and its object."""
    broken = verdict(content)
    if broken:
        name = by_anchor()[f"image-{broken[0]}"].name
        return [f"refused {broken[0]} {broken[1]} {name}"]
    f = File(content)
    lines = [check(content), *record_lines(f, content)]
    if len(content) > LONG:
        return lines
    for start, size, owner in parts(f):
        lines.append(f"part {start} {size} {'gap' if owner.startswith('gap') else owner}")
    for i, it in f.sections():
        if it.sh_type in TABLES:
            is_broken = table_verdict(f, i)
            lines += [f"broken {i}"] if is_broken else [own for _, own in entries(f, i)]
    lines.append(f"show ={shown(content).encode().hex()}")
    refusal, written = rewritten(content) or ("", b"")
    lines.append(f"rewrite {refusal.strip()}" if refusal else f"rewrite ={written.hex()}")
    return lines


def main(options: Options) -> None:
    """`tools/dev dump`."""
    os.makedirs(options.folder, exist_ok=True)
    for k, content in enumerate(files()):
        write(f"{options.folder}/{k}.elf", content)
        write(f"{options.folder}/{k}.txt", "".join(f"{it}\n" for it in lines_of(content)))
