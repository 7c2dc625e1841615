"""What `elfmap show` says of a file: a line on the file, on each of its parts, on each section and
segment, and on each entry of a table."""
import image
import tables
from link import word
from objects import ABS, COMMON, UNDEF, string
from records import *

WITH_STRING = (tables.NEEDED, tables.SONAME, tables.RPATH, tables.RUNPATH)


def parts(f):
    """Each part that has bytes: where it begins, how long it is, and whose it is; and the gaps
    between them."""
    owned = [
        (0, 64, "header"),
        (f.header.e_phoff, 56 * f.segment_count, "segments"),
        (f.header.e_shoff, 64 * f.section_count, "sections"),
    ]
    owned += [
        (it.sh_offset, it.sh_size, f"content {i}")
        for i, it in f.sections()
        if it.sh_type not in (NULL, NOBITS)
    ]
    at = 0
    for start, size, owner in sorted(it for it in owned if it[1] > 0):
        if start > at:
            yield at, start - at, "gap " + f.bytes[at:start][:16].hex()
        yield start, size, owner
        at = start + size
    if at < f.len:
        yield at, f.len - at, "gap " + f.bytes[at:][:16].hex()


def name_of(f, it):
    if not f.name_table or it.sh_type == NULL:
        return b""
    return string(f.content(f.name_table), it.sh_name)


def signed(n, bits):
    return n - 2**bits if n >= 2 ** (bits - 1) else n


def symbol_name(f, table, k):
    return string(f.content(f.section(table).sh_link), tables.symbols(f, table)[k].st_name)


def place(f, table, k, it):
    reserved = {UNDEF: "undef", ABS: "abs", COMMON: "common"}
    if it.st_shndx == XINDEX:
        return tables.index_words(f, table)[k][1]
    return reserved.get(it.st_shndx, "reserved" if it.st_shndx >= LORESERVE else it.st_shndx)


def symbol_lines(f, i):
    names = f.content(f.section(i).sh_link)
    for k, it in enumerate(tables.symbols(f, i)):
        about = f"{it.st_info // 16} {it.st_info % 16} {it.st_other} {place(f, i, k, it)}"
        name = word(string(names, it.st_name))
        yield f"symbol {i} {k} {about} {it.st_value:#x} {it.st_size:#x} {name}"


def relocation_lines(f, i):
    kind = f.section(i).sh_type
    for k, it in enumerate(f.entries(i, RELOCATION, tables.ENTRY_SIZE[kind])):
        addend = signed(it.r_addend, 64) if kind == RELA else "-"
        info = f"{it.r_info // 2 ** 32} {it.r_info % 2 ** 32}"
        yield f"reloc {i} {k} {it.r_offset:#x} {info} {addend}"


def group_lines(f, i):
    it = f.section(i)
    flags, *members = [number for _, number in f.words(i)]
    signature = word(symbol_name(f, it.sh_link, it.sh_info))
    yield " ".join(map(str, ["group", i, flags, signature, *members]))


def note_lines(f, i):
    for at, _, name, descriptor in tables.notes(f, i):
        begin = at + 12 + tables.padded(name)
        name_bytes = f.bytes[at + 12 : at + 12 + name][:-1]
        digits = f.bytes[begin : begin + descriptor].hex() or "-"
        yield f"note {i} {f.number(at + 8, 4)} {word(name_bytes)} {digits}"


def dynamic_lines(f, i):
    strings = f.content(f.section(i).sh_link)
    for it in tables.entries_before_null(f, i):
        name = " " + word(string(strings, it.d_un)) if it.d_tag in WITH_STRING else ""
        yield f"dynamic {i} {signed(it.d_tag, 64)} {it.d_un:#x}{name}"


def hash_lines(f, i):
    buckets, chains = tables.buckets_and_chains(f, i)
    yield f"hash {i} {len(buckets)} {len(chains)}"


TABLE_LINES = {
    SYMTAB: symbol_lines,
    DYNSYM: symbol_lines,
    RELA: relocation_lines,
    REL: relocation_lines,
    GROUP: group_lines,
    NOTE: note_lines,
    DYNAMIC_SECTION: dynamic_lines,
    HASH: hash_lines,
}


def lines(f):
    h = f.header
    yield f"file {f.order} {h.e_type} {h.e_machine} {h.e_entry:#x} {h.e_flags:#x}"
    for start, size, owner in parts(f):
        yield f"part {start:#x} {size:#x} {owner}"
    for i, it in f.sections():
        head = f"section {i} {it.sh_type} {it.sh_flags:#x} {it.sh_addr:#x}"
        place = f"{it.sh_offset:#x} {it.sh_size:#x} {it.sh_link} {it.sh_info}"
        yield f"{head} {place} {it.sh_addralign:#x} {it.sh_entsize:#x} {word(name_of(f, it))}"
    for j, it in enumerate(f.segments()):
        head = f"segment {j} {it.p_type} {it.p_flags:#x} {it.p_offset:#x}"
        place = f"{it.p_vaddr:#x} {it.p_paddr:#x} {it.p_filesz:#x} {it.p_memsz:#x}"
        yield f"{head} {place} {it.p_align:#x}"
    for i, it in f.sections():
        if it.sh_type in TABLE_LINES:
            broken = tables.verdict(f, i)
            if broken:
                yield "refused %d %d %d" % (i, *broken)
            else:
                yield from TABLE_LINES[it.sh_type](f, i)


def show(content):
    """What `elfmap show` says of these bytes."""
    broken = image.verdict(content)
    if broken:
        return "refused %d %d\n" % broken
    return "".join(line + "\n" for line in lines(image.File(content)))
