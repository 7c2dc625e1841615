"""Rules 70 to 79 of docs/RULES.md, on a file that is read as an object: each is a function of its
name there, which gives every offset where the file breaks it; then the object that a file denotes,
and the canonical layout of an object. A rule is asked only of a file that keeps those before it."""
import image
import tables
from records import *
from tables import symbols

ET_REL = 1
SHF_INFO_LINK = 0x40
UNDEF = 0
ABS = 0xFFF1
COMMON = 0xFFF2
RELOCATIONS = (RELA, REL)


def symbol_table(f):
    """The index of the first section of type SYMTAB; None where there is none."""
    return next((i for i, it in f.sections() if it.sh_type == SYMTAB), None)


def index_table(f):
    """The index of the symbol table's first index table; None where there is none."""
    return next(
        (
            i
            for i, it in f.sections()
            if it.sh_type == SYMTAB_SHNDX and it.sh_link == symbol_table(f)
        ),
        None,
    )


def left_out(f):
    table = symbol_table(f)
    strings = f.section(table).sh_link if table is not None else 0
    return {0, table, strings, index_table(f), f.name_table} | {
        i for i, it in f.sections() if it.sh_type == NULL
    }


def kept(f):
    """The sections of the object, by their indexes in the file."""
    out = left_out(f)
    return [i for i, _ in f.sections() if i not in out]


def plain(f):
    """Those that are neither groups nor of relocations."""
    return [f.section(i) for i in kept(f) if f.section(i).sh_type not in (GROUP, *RELOCATIONS)]


def section_of(f, k, it):
    """The index of the section of symbol k, or the reserved index that stands for it."""
    return tables.index_words(f, symbol_table(f))[k][1] if it.st_shndx == XINDEX else it.st_shndx


# ---- the rules


def not_relocatable(f):
    return [16] if f.header.e_type != ET_REL else []


def loadable(f):
    return [f.header.at(field) for field in ("e_entry", "e_phnum") if getattr(f.header, field) != 0]


def foreign_section(f):
    return [
        it.at("sh_type")
        for _, it in f.sections()
        if it.sh_type in (HASH, DYNAMIC_SECTION, SHLIB, DYNSYM)
    ]


def second_symbol_table(f):
    return [
        it.at("sh_type") for i, it in f.sections() if it.sh_type == SYMTAB and i != symbol_table(f)
    ]


def stray_index_table(f):
    return [
        it.at("sh_link")
        for _, it in f.sections()
        if it.sh_type == SYMTAB_SHNDX and it.sh_link != symbol_table(f)
    ]


def symbol_outside(f):
    if symbol_table(f) is None:
        return []
    inside = {*kept(f), UNDEF}
    return [
        it.at("st_shndx")
        for k, it in enumerate(symbols(f, symbol_table(f)))
        if it.st_shndx not in (ABS, COMMON)
        and (LORESERVE <= it.st_shndx < XINDEX or section_of(f, k, it) not in inside)
    ]


def wrong_relocation_target(f):
    inside = set(kept(f))
    without_bits = (NOBITS, GROUP, *RELOCATIONS)
    return [
        it.at("sh_info")
        for it in map(f.section, kept(f))
        if it.sh_type in RELOCATIONS
        and (it.sh_info not in inside or f.section(it.sh_info).sh_type in without_bits)
    ]


def wrong_group_member(f):
    inside = set(kept(f))
    earlier = set()
    wrong = []
    for i in (i for i, it in f.sections() if it.sh_type == GROUP):
        members = f.words(i)[1:]
        wrong += [
            at
            for at, member in members
            if member not in inside or f.section(member).sh_type == GROUP or member in earlier
        ]
        earlier |= {member for _, member in members}
    return wrong


def wrong_kept_link(f):
    inside = {*kept(f), 0}
    return [it.at("sh_link") for it in plain(f) if it.sh_link not in inside]


def wrong_kept_info(f):
    inside = set(kept(f))
    return [
        it.at("sh_info")
        for it in plain(f)
        if it.sh_flags & SHF_INFO_LINK and it.sh_info not in inside
    ]


def verdict(content):
    """The first rule that these bytes break as an image or as an object, and the lowest offset
    where they do; None where they denote an object."""
    f = File(content)
    broken = image.verdict(content) or first_broken(
        [
            (70, not_relocatable),
            (71, loadable),
            (72, foreign_section),
            (73, second_symbol_table),
            (74, stray_index_table),
        ],
        f,
    )
    if not broken and symbol_table(f) is not None:
        broken = tables.verdict(f, symbol_table(f)) or first_broken([(75, symbol_outside)], f)
    for i in kept(f) if not broken else []:
        broken = broken or f.section(i).sh_type in (GROUP, *RELOCATIONS) and tables.verdict(f, i)
    return broken or first_broken(
        [
            (76, wrong_relocation_target),
            (77, wrong_group_member),
            (78, wrong_kept_link),
            (79, wrong_kept_info),
        ],
        f,
    )


# ---- what a file denotes


class Value:
    """A value by its fields."""

    def __init__(self, **fields):
        self.__dict__.update(fields)


def string(table, offset):
    return table[offset:].split(b"\0")[0]


def body_of(f, i, position):
    """What a section holds: the entries of relocations, a group's members, bytes, or a size alone.
    Sections are named by their positions."""
    it = f.section(i)
    if it.sh_type in RELOCATIONS:
        return [
            (
                entry.r_offset,
                entry.r_info // 2**32,
                entry.r_info % 2**32,
                entry.r_addend if it.sh_type == RELA else 0,
            )
            for entry in f.entries(i, RELOCATION, tables.ENTRY_SIZE[it.sh_type])
        ]
    if it.sh_type == GROUP:
        words = [word for _, word in f.words(i)]
        return words[0], [position[member] for member in words[1:]]
    return it.sh_size if it.sh_type == NOBITS else f.content(i)


def section_value(f, i, position):
    """A section of the object, by its index."""
    it = f.section(i)
    names = f.content(f.name_table) if f.name_table else b""
    is_plain = it.sh_type not in (GROUP, *RELOCATIONS)
    names_section = it.sh_type in RELOCATIONS or is_plain and it.sh_flags & SHF_INFO_LINK
    return Value(
        name=string(names, it.sh_name),
        type=it.sh_type,
        flags=it.sh_flags,
        addr=it.sh_addr,
        align=it.sh_addralign,
        entsize=it.sh_entsize,
        link=position.get(it.sh_link) if is_plain else None,
        info=position[it.sh_info] if names_section else it.sh_info,
        body=body_of(f, i, position),
    )


def symbol_value(f, k, it, strings, position):
    """A symbol of the object, entry k of the symbol table."""
    is_reserved = it.st_shndx in (ABS, COMMON)
    return Value(
        name=string(strings, it.st_name),
        info=it.st_info,
        other=it.st_other,
        value=it.st_value,
        size=it.st_size,
        section=None if is_reserved else position.get(section_of(f, k, it)),
        reserved=it.st_shndx if is_reserved else UNDEF,
    )


def object_of(content):
    """The object that these bytes denote, which break no rule. A section is named by its position
    among the object's, a symbol by its index in the table."""
    f = File(content)
    position = {i: p for p, i in enumerate(kept(f))}
    table = symbol_table(f)
    found = [] if table is None else list(enumerate(symbols(f, table)))[1:]
    strings = b"" if table is None else f.content(f.section(table).sh_link)
    return Value(
        order=f.order,
        osabi=content[7],
        abi=content[8],
        machine=f.header.e_machine,
        flags=f.header.e_flags,
        sections=[section_value(f, i, position) for i in kept(f)],
        symbols=[symbol_value(f, k, it, strings, position) for k, it in found],
    )


# ---- the canonical layout


def string_table(names):
    """A zero, and each distinct name that is neither empty nor a proper suffix of another one, with
    its zero, in the order of first use; and the lowest place at which each name stands with a zero
    after it."""
    tails = {name[k:] for name in names for k in range(1, len(name))}
    kept = [name for name in dict.fromkeys(names) if name and name not in tails]
    table = b"\0" + b"".join(name + b"\0" for name in kept)
    return table, {name: table.index(name + b"\0") for name in set(names)}


def record(order, layout, **fields):
    """The bytes of a record: these fields, and 0 in all others."""
    size = max(place + width for place, width in layout.values())
    content = bytearray(size)
    for field, value in fields.items():
        place, width = layout[field]
        content[place : place + width] = value.to_bytes(width, order)
    return bytes(content)


def content_of(o, it):
    """The bytes of a section in the file."""
    if it.type in RELOCATIONS:
        entries = [
            record(
                o.order,
                RELOCATION,
                r_offset=offset,
                r_info=symbol * 2**32 + kind,
                r_addend=addend,
            )
            for offset, symbol, kind, addend in it.body
        ]
        return b"".join(entry[: tables.ENTRY_SIZE[it.type]] for entry in entries)
    if it.type == GROUP:
        flags, members = it.body
        return b"".join(word.to_bytes(4, o.order) for word in [flags, *(p + 1 for p in members)])
    return b"" if it.type == NOBITS else it.body


def index_of(it):
    """The section index of a symbol."""
    return it.reserved if it.section is None else it.section + 1


def is_far(it):
    """Whether the section index of a symbol is in the index table."""
    return it.section is not None and index_of(it) >= LORESERVE


def section_part(o, it, table):
    """A section of an object: its name, its bytes, its size if it has none, and the fields of its
    header."""
    is_plain = it.type not in (GROUP, *RELOCATIONS)
    names_section = it.type in RELOCATIONS or is_plain and it.flags & SHF_INFO_LINK
    link = table
    if is_plain:
        link = 0 if it.link is None else it.link + 1
    fields = dict(
        sh_type=it.type,
        sh_flags=it.flags,
        sh_addr=it.addr,
        sh_link=link,
        sh_info=it.info + 1 if names_section else it.info,
        sh_addralign=it.align,
        sh_entsize=it.entsize,
    )
    return it.name, content_of(o, it), it.body if it.type == NOBITS else None, fields


def symbol_entry(o, it, name):
    """The entry of a symbol, whose name is at this place."""
    fields = dict(st_name=name, st_info=it.info, st_other=it.other)
    fields |= dict(st_shndx=XINDEX if is_far(it) else index_of(it))
    return record(o.order, SYMBOL, **fields, st_value=it.value, st_size=it.size)


def laid(o):
    """The one list of bytes that is written for an object."""
    table = 1 + len(o.sections)
    has_index_table = any(is_far(it) for it in o.symbols)
    strings = table + 1 + has_index_table
    parts = [section_part(o, it, table) for it in o.sections]
    names, name_at = string_table([it.name for it in o.symbols])
    entries = bytes(24) + b"".join(symbol_entry(o, it, name_at[it.name]) for it in o.symbols)
    first_global = 1 + sum(it.info // 16 == 0 for it in o.symbols)
    fields = dict(sh_type=SYMTAB, sh_link=strings, sh_info=first_global)
    parts.append((b".symtab", entries, None, dict(**fields, sh_addralign=8, sh_entsize=24)))
    if has_index_table:
        words = [0] + [index_of(it) if is_far(it) else 0 for it in o.symbols]
        content = b"".join(word.to_bytes(4, o.order) for word in words)
        fields = dict(sh_type=SYMTAB_SHNDX, sh_link=table, sh_addralign=4, sh_entsize=4)
        parts.append((b".symtab_shndx", content, None, fields))
    parts.append((b".strtab", names, None, dict(sh_type=STRTAB, sh_addralign=1)))
    section_names, section_name_at = string_table([name for name, *_ in parts] + [b".shstrtab"])
    parts.append((b".shstrtab", section_names, None, dict(sh_type=STRTAB, sh_addralign=1)))
    return placed(o, parts, section_name_at)


def section_header(o, name, place, size, fields):
    """A section header, by the places of its name and its content."""
    own = dict(sh_name=name, sh_offset=place, sh_size=size)
    return record(o.order, SECTION_HEADER, **own, **fields)


def placed(o, parts, name_at):
    """Header, contents, each at the least multiple of its alignment, and section table."""
    file = bytearray(64)
    headers = []
    for name, content, size, fields in parts:
        if size is None:
            file += bytes(-len(file) % max(1, fields["sh_addralign"]))
        own_size = len(content) if size is None else size
        headers.append(section_header(o, name_at[name], len(file), own_size, fields))
        file += content
    file += bytes(-len(file) % 8)
    count = 1 + len(parts)
    first = record(
        o.order,
        SECTION_HEADER,
        sh_size=count if count >= LORESERVE else 0,
        sh_link=count - 1 if count - 1 >= LORESERVE else 0,
    )
    file[:64] = record(
        o.order,
        HEADER,
        e_type=ET_REL,
        e_machine=o.machine,
        e_version=1,
        e_shoff=len(file),
        e_flags=o.flags,
        e_ehsize=64,
        e_shentsize=64,
        e_shnum=count if count < LORESERVE else 0,
        e_shstrndx=count - 1 if count - 1 < LORESERVE else XINDEX,
    )
    file[:9] = b"\x7fELF\2" + bytes([1 if o.order == "little" else 2, 1, o.osabi, o.abi])
    return bytes(file) + first + b"".join(headers)


def rewrite(content):
    """What `elfmap rewrite` says of these bytes on standard error, and what it writes."""
    broken = verdict(content)
    if broken:
        return "refused %d %d\n" % broken, b""
    o = object_of(content)
    # A gap before one content alone may be too long to be made.
    if sum(max(1, it.align) for it in o.sections if it.type != NOBITS) > 2**31:
        return None
    written = laid(o)
    return ("too long\n", b"") if len(written) > 2**30 else ("", written)
