"""Rules 1 to 33 of docs/RULES.md, on any file: each is a function of its name there, which gives
every offset where the file breaks it. A rule is asked only of a file that keeps those before it.
This is written from the rules' own words and shares nothing with the crates; it may be slow.

The reference implementation is in Python, with the standard library alone. A test crate would be
proved, and could share definitions with what it tests."""
from functools import lru_cache

from records import *


def is_power_of_two(n):
    return n != 0 and n & (n - 1) == 0


# ---- the header


def too_long(f):
    return [2**30] if f.len > 2**30 else []


def too_short(f):
    return [f.len] if f.len < 64 else []


def wrong_magic(f):
    return [i for i in range(4) if f.bytes[i] != b"\x7fELF"[i]]


def wrong_class(f):
    return [4] if f.bytes[4] != 2 else []


def wrong_data(f):
    return [5] if f.bytes[5] not in (1, 2) else []


def wrong_ident_version(f):
    return [6] if f.bytes[6] != 1 else []


def wrong_version(f):
    return [20] if f.header.e_version != 1 else []


def wrong_header_size(f):
    return [52] if f.header.e_ehsize != 64 else []


def count_without_section_table(f):
    if f.header.e_shoff == 0:
        return [
            f.header.at(field)
            for field in ("e_shnum", "e_shstrndx")
            if getattr(f.header, field) != 0
        ]
    return []


def wrong_section_header_size(f):
    return [58] if f.header.e_shoff != 0 and f.header.e_shentsize != 64 else []


def reserved_section_count(f):
    return [60] if f.header.e_shnum >= LORESERVE else []


def first_section_header_past_end(f):
    return [40] if f.header.e_shoff != 0 and f.header.e_shoff + 64 > f.len else []


# ---- the tables and their counts


def first_section_header_not_null(f):
    if f.header.e_shoff == 0:
        return []
    first = f.section(0)
    return [
        first.at(field)
        for field in SECTION_HEADER
        if field not in ("sh_size", "sh_link", "sh_info") and getattr(first, field) != 0
    ]


def wrong_extended_section_count(f):
    if f.header.e_shoff == 0:
        return []
    first = f.section(0)
    wrong = first.sh_size < LORESERVE if f.header.e_shnum == 0 else first.sh_size != 0
    return [first.at("sh_size")] if wrong else []


def section_table_past_end(f):
    return [40] if f.header.e_shoff != 0 and f.header.e_shoff + 64 * f.section_count > f.len else []


def wrong_name_table_index(f):
    index = f.header.e_shstrndx
    right = index == XINDEX or index < LORESERVE and index < f.section_count
    return [62] if f.header.e_shoff != 0 and not right else []


def wrong_extended_name_table_index(f):
    if f.header.e_shoff == 0:
        return []
    index = f.section(0).sh_link
    right = LORESERVE <= index < f.section_count if f.header.e_shstrndx == XINDEX else index == 0
    return [] if right else [f.section(0).at("sh_link")]


def wrong_segment_count(f):
    one_alone = (f.header.e_phoff == 0) != (f.header.e_phnum == 0)
    return [56] if one_alone or f.header.e_phnum == PN_XNUM and f.header.e_shoff == 0 else []


def wrong_program_header_size(f):
    return [54] if f.header.e_phnum != 0 and f.header.e_phentsize != 56 else []


def wrong_extended_segment_count(f):
    if f.header.e_shoff == 0:
        return []
    count = f.section(0).sh_info
    right = count >= PN_XNUM if f.header.e_phnum == PN_XNUM else count == 0
    return [] if right else [f.section(0).at("sh_info")]


def program_table_past_end(f):
    return [32] if f.header.e_phnum != 0 and f.header.e_phoff + 56 * f.segment_count > f.len else []


# ---- sections and segments


def typed_sections(f):
    """The section headers from 1 on whose type isn't NULL."""
    return [it for i, it in f.sections() if i > 0 and it.sh_type != NULL]


def typed_segments(f):
    return [it for it in f.segments() if it.p_type != NULL]


def loads(f):
    return [it for it in f.segments() if it.p_type == LOAD]


def wrong_section_alignment(f):
    return [
        it.at("sh_addralign")
        for it in typed_sections(f)
        if it.sh_addralign != 0 and not is_power_of_two(it.sh_addralign)
    ]


def misaligned_section(f):
    return [
        it.at("sh_addr")
        for it in typed_sections(f)
        if it.sh_addralign > 1 and it.sh_addr % it.sh_addralign != 0
    ]


def content_past_end(f):
    return [
        it.at("sh_offset")
        for it in typed_sections(f)
        if it.sh_type != NOBITS and it.sh_size > 0 and it.sh_offset + it.sh_size > f.len
    ]


def segment_past_end(f):
    return [
        it.at("p_offset")
        for it in typed_segments(f)
        if it.p_filesz > 0 and it.p_offset + it.p_filesz > f.len
    ]


def file_size_above_memory_size(f):
    return [it.at("p_filesz") for it in loads(f) if it.p_filesz > it.p_memsz]


def wrong_segment_alignment(f):
    return [
        it.at("p_align") for it in loads(f) if it.p_align != 0 and not is_power_of_two(it.p_align)
    ]


def incongruent_segment(f):
    return [
        it.at("p_offset")
        for it in loads(f)
        if it.p_align > 1 and it.p_vaddr % it.p_align != it.p_offset % it.p_align
    ]


def load_out_of_order(f):
    all_loads = loads(f)
    return [
        after.at("p_vaddr")
        for before, after in zip(all_loads, all_loads[1:])
        if after.p_vaddr < before.p_vaddr
    ]


def wrong_name_table_type(f):
    table = f.section(f.name_table)
    return [table.at("sh_type")] if f.name_table != 0 and table.sh_type != STRTAB else []


def unclosed_name_table(f):
    table = f.section(f.name_table)
    if f.name_table == 0 or table.sh_size == 0:
        return []
    return [at for at in (table.sh_offset, table.sh_offset + table.sh_size - 1) if f.bytes[at] != 0]


def name_past_end(f):
    size = f.section(f.name_table).sh_size if f.name_table != 0 else 0
    return [
        it.at("sh_name")
        for it in typed_sections(f)
        if it.sh_name >= size and not (size == 0 and it.sh_name == 0)
    ]


def extents(f):
    """Where each part of the file begins and ends that has bytes of its own: header, tables, and
    contents."""
    tables = [(f.header.e_shoff, 64 * f.section_count), (f.header.e_phoff, 56 * f.segment_count)]
    contents = [
        (it.sh_offset, it.sh_size) for _, it in f.sections() if it.sh_type not in (NULL, NOBITS)
    ]
    return [(start, start + size) for start, size in [(0, 64), *tables, *contents] if size > 0]


def shared_byte(f):
    """In the order of their starts: one that begins before the end of another one that began before
    it shares its first byte."""
    shared = []
    end = 0
    for start, stop in sorted(extents(f)):
        shared += [start] if start < end else []
        end = max(end, stop)
    return shared


RULES = list(
    enumerate(
        [
            too_long,
            too_short,
            wrong_magic,
            wrong_class,
            wrong_data,
            wrong_ident_version,
            wrong_version,
            wrong_header_size,
            count_without_section_table,
            wrong_section_header_size,
            reserved_section_count,
            first_section_header_past_end,
            first_section_header_not_null,
            wrong_extended_section_count,
            section_table_past_end,
            wrong_name_table_index,
            wrong_extended_name_table_index,
            wrong_segment_count,
            wrong_program_header_size,
            wrong_extended_segment_count,
            program_table_past_end,
            wrong_section_alignment,
            misaligned_section,
            content_past_end,
            segment_past_end,
            file_size_above_memory_size,
            wrong_segment_alignment,
            incongruent_segment,
            load_out_of_order,
            wrong_name_table_type,
            unclosed_name_table,
            name_past_end,
            shared_byte,
        ],
        1,
    )
)


# It is asked of one file a few times in a row.
@lru_cache(1)
def verdict_on(content):
    return first_broken(RULES, File(content))


def verdict(content):
    """The first rule that these bytes break, and the lowest offset where they do; None where they
    are an ELF-64 file."""
    return verdict_on(bytes(content))


def check(content):
    """What `elfmap check` says of these bytes."""
    broken = verdict(content)
    if broken:
        return "refused %d %d" % broken
    f = File(content)
    return f"ok {f.len} {f.section_count} {f.segment_count}"
