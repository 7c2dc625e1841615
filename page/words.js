"use strict";
// Words for the numbers of records. names.js has their names; RELOCATION_TYPES comes from the Python package: the names of the types of
// relocations, by the machine.

// Section types that have tables, and of which kind.
const KINDS = {
    [SHT.SYMTAB]: "symbols", [SHT.DYNSYM]: "symbols", [SHT.RELA]: "relocations", [SHT.REL]: "relocations", [SHT.DYNAMIC]: "dynamic",
    [SHT.NOTE]: "notes",
};

function named(kind, number) {
    return NAMES[kind][number] ?? signed(number);
}

function machine_words(number) {
    const name = NAMES.e_machine[number];
    return `machine ${number}${name ? ` (EM_${name})` : ""}`;
}

function hex(number) {
    return `0x${number.toString(16)}`;
}

function signed(number) {
    return number < 0 ? `-0x${(-number).toString(16)}` : hex(number);
}

function counted(number, one, more = `${one}s`) {
    return `${number.toLocaleString("en")} ${number === 1 ? one : more}`;
}

function section_flags(flags) {
    return Object.entries(SECTION_FLAGS).filter(([flag]) => BigInt(flags) & BigInt(flag)).map(([, letter]) => letter).join("") || "-";
}

function segment_flags(flags) {
    return Object.entries(SEGMENT_FLAGS).reverse().map(([flag, letter]) => (flags & flag ? letter : "-")).join("");
}

// The columns of each table: a title, the words of a row, where a link leads to, if it is one, and where the whole name is, if it is cut.
const COLUMNS = {
    sections: [
        ["name", (it) => it.name || "(no name)", null, (it) => it.whole],
        ["type", (it) => named("sh_type", it.sh_type)],
        ["flags", (it) => section_flags(it.sh_flags)],
        ["offset", (it) => hex(it.sh_offset), (it) => has_content(it) && it.sh_size && { bytes: it.sh_offset, length: it.sh_size }],
        ["size", (it) => hex(it.sh_size)],
        ["address", (it) => hex(it.sh_addr)],
        ["link", (it) => String(it.sh_link), (it) => it.sh_link && { kind: "sections", row: it.sh_link }],
        ["info", (it) => String(it.sh_info), (it) => KINDS[it.sh_type] === "relocations" && it.sh_info && { kind: "sections", row: it.sh_info }],
        ["alignment", (it) => hex(it.sh_addralign)],
        ["entry size", (it) => String(it.sh_entsize)],
    ],
    segments: [
        ["type", (it) => named("p_type", it.p_type)],
        ["flags", (it) => segment_flags(it.p_flags)],
        ["offset", (it) => hex(it.p_offset), (it) => ({ bytes: it.p_offset, length: it.p_filesz })],
        ["address", (it) => hex(it.p_vaddr)],
        ["in the file", (it) => hex(it.p_filesz)],
        ["in memory", (it) => hex(it.p_memsz)],
        ["alignment", (it) => hex(it.p_align)],
    ],
    symbols: [
        ["name", (it) => it.name || "(no name)", null, (it) => it.whole],
        ["value", (it) => hex(it.st_value)],
        ["size", (it) => String(it.st_size)],
        ["type", (it) => named("st_type", it.st_info & 15)],
        ["binding", (it) => named("st_bind", it.st_info >> 4)],
        ["section", symbol_place, (it) => it.is_in_section && { kind: "sections", row: it.section }, (it) => it.whole_where],
    ],
    relocations: [
        ["offset", (it) => hex(it.r_offset)],
        ["type", (it) => it.type_name ?? String(it.relocation_type)],
        ["symbol", (it) => `${it.symbol} ${it.name}`.trim(), (it) => ({ kind: "symbols", table: it.linked, row: it.symbol }), (it) => it.whole],
        ["addend", (it) => signed(it.r_addend)],
        ["applies to", (it) => `section ${it.target}`, (it) => it.target && { kind: "sections", row: it.target }],
    ],
    dynamic: [
        ["tag", (it) => named("d_tag", it.d_tag)],
        ["value", (it) => hex(it.d_un)],
        ["string", (it) => it.name, null, (it) => it.whole],
    ],
    notes: [
        ["owner", (it) => it.name || "(no name)", null, (it) => it.whole],
        ["type", (it) => hex(it.n_type)],
        ["descriptor", (it) => counted(it.desc.len, "byte"), (it) => ({ bytes: it.desc.start, length: it.desc.len })],
    ],
};

COLUMNS.sizes = [
    ["name", (it) => it.name || "(no name)", (it) => it.section > 0 && { kind: "sections", row: it.section }, (it) => it.whole],
    ["in the file", (it) => it.bytes.toLocaleString("en")],
    ["share", (it) => `${(100 * it.share).toFixed(1)} %`],
    ["in memory", (it) => it.memory.toLocaleString("en")],
];

function has_content(section) {
    return section.sh_type !== SHT.NULL && section.sh_type !== SHT.NOBITS;
}

function symbol_place(symbol) {
    if (symbol.is_in_section) return `${symbol.section} ${symbol.where}`.trim();
    return NAMES.st_shndx[symbol.st_shndx] ?? hex(symbol.st_shndx);
}

function row_words(kind, row) {
    return COLUMNS[kind].map(([, words]) => words(row));
}
