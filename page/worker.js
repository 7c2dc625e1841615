"use strict";
// Reads a dropped file into the module's memory, validates it, and answers what the page asks.
// It runs beside the page, which stays quick.

const SHARED_BYTE = 33;
// What a table holds, by its type, and the fields of an entry by their offsets. A word has no fields.
const ENTRY_WORDS = { 2: "symbol", 11: "symbol", 4: "relocation", 9: "relocation", 6: "entry", 17: "word", 5: "word", 18: "word" };
const ENTRY_FIELDS = {
    symbol: { st_name: 0, st_info: 4, st_other: 5, st_shndx: 6, st_value: 8, st_size: 16 },
    relocation: { r_offset: 0, r_info: 8, r_addend: 16 },
    entry: { d_tag: 0, d_un: 8 },
};
// So many bytes are read at a time.
const PIECE = 1 << 24;
// Rows are looked through for so many milliseconds before the next message is heard.
const MOST_MILLISECONDS = 50;
// A search looks at so many characters of a name.
const MOST_SEARCHED = 4000;
// A list of tables to choose from has so many characters of each name.
const MOST_TO_CHOOSE = 60;
// So many parts that share a byte are named.
const MOST_OWNERS = 16;

let module;
let reader;
let section_names = new Map();
let faults = [];
// Grows with each file and each search: what is under way for an older one ends.
let turn = 0;

onmessage = ({ data }) => {
    if (data.module) module = WebAssembly.compile(data.module);
    else answer(data).catch((fault) => postMessage({ id: data.id, fault: String(fault.message ?? fault) }));
};

async function answer({ id, ask, words }) {
    postMessage({ id, value: await QUESTIONS[ask](...words) });
}

const QUESTIONS = {
    open,
    parts: (from, count) => rows(from, count, (k) => reader.part(k)),
    sections: (from, count, table, most) => rows(from, count, (k) => section_row(k, most)),
    segments: (from, count) => rows(from, count, (k) => reader.segment(k)),
    symbols: (from, count, table, most) => rows(from, count, (k) => symbol_row(table, k, most)),
    relocations: (from, count, table, most) => rows(from, count, (k) => relocation_row(table, k, most)),
    dynamic: (from, count, table, most) => rows(from, count, (k) => dynamic_row(table, k, most)),
    notes: (from, count, table, most) => rows(from, count, (k) => note_row(table, k, most)),
    refused,
    size_count,
    sizes: (from, count, table, most) => rows(from, count, (k) => size_row(k, most)),
    bytes: (from, count) => reader.bytes(from, Math.max(0, Math.min(count, reader.length - from))).slice(),
    name: (from, end) => reader.part_of_name(from, end),
    findings,
    finding_rows: (from, count) => faults.slice(from, from + count).map(finding_row),
    search,
};

// ---- A file

async function open(file) {
    const own = ++turn;
    const length = Math.min(file.size, MOST_BYTES + 1);
    reader = null;
    const archive = file.size < ARCHIVE_MAGIC.length ? null : await members_of(file);
    if (own !== turn) throw new Error("another file was opened");
    if (archive) return { archive };
    const instance = await WebAssembly.instantiate(await module);
    // Also of an empty file, which is read in no piece.
    if (own !== turn) throw new Error("another file was opened");
    const made = new Reader(instance, LAYOUT, length);
    for (let at = 0; at < length; at += PIECE) {
        const piece = await file.slice(at, Math.min(at + PIECE, length)).arrayBuffer();
        if (own !== turn) throw new Error("another file was opened");
        made.bytes(at, piece.byteLength).set(new Uint8Array(piece));
        postMessage({ progress: (at + piece.byteLength) / length });
    }
    reader = made;
    section_names = new Map();
    faults = [];
    return validated();
}

// What the page begins with: the verdict, and how many of everything there are.
function validated() {
    const start = performance.now();
    const fault = reader.verdict();
    const took = performance.now() - start;
    const header = reader.header();
    const file = reader.file();
    const parts = fault ? 0 : reader.account();
    const owners = fault?.rule === SHARED_BYTE ? owners_of(fault.at, file) : { first: [], more: 0 };
    return { fault, took, length: reader.length, header, file, parts, owners, tables: fault ? [] : tables(file.sections) };
}

// What a byte belongs to, of which a refused file has several: the first of them in words, and how many more there are.
function owners_of(at, file) {
    const ranges = [
        ["the ELF header", 0, 64],
        ["the section header table", file.e_shoff, file.e_shoff + 64 * file.sections],
        ["the program header table", file.e_phoff, file.e_phoff + 56 * file.segments],
    ];
    const owners = ranges.filter(([, start, end]) => start <= at && at < end).map(([words, start, end]) => ({ words, start, end }));
    for (let index = 1; index < file.sections; index++) {
        const { sh_type, sh_offset, sh_size } = reader.section(index);
        if (has_content({ sh_type }) && sh_offset <= at && at < sh_offset + sh_size) owners.push({ index, start: sh_offset, end: sh_offset + sh_size });
    }
    const first = owners.slice(0, MOST_OWNERS).map(({ index, words, start, end }) => {
        if (index === undefined) return { words, start, end, whole: null };
        const { words: own, whole } = section_words(index);
        return { words: `the content of ${own}`, start, end, whole };
    });
    return { first, more: owners.length - first.length };
}

// The sections that hold tables, each with its kind and the number of its entries.
function tables(count) {
    const found = [];
    for (let index = 0; index < count; index++) {
        const kind = KINDS[reader.section(index).sh_type];
        const table = kind && reader.table(index);
        if (table) found.push({ section: index, kind, entries: table.entries, name: section_name(index, MOST_TO_CHOOSE).name });
    }
    return found;
}

// ---- Rows

function rows(from, count, row) {
    const found = [];
    for (let k = from; k < from + count; k++) {
        const it = row(k);
        if (!it) break;
        found.push({ index: k, ...it });
    }
    return found;
}

function section_row(index, most) {
    const section = reader.section(index);
    return section && { ...section, ...section_name(index, most) };
}

// The name of a section, of which a NULL one has none. Many may have one name, which may be long: it is looked up once.
function section_name(index, most) {
    const section = reader.section(index);
    if (!section || section.sh_type === 0) return { name: "", whole: null };
    if (!section_names.has(section.sh_name)) section_names.set(section.sh_name, reader.name(index));
    const place = section_names.get(section.sh_name);
    return place ? reader.name_words(place, most) : { name: "", whole: null };
}

// A section in words, and where its whole name is if it is cut.
function section_words(index) {
    const { name, whole } = section_name(index);
    return { words: `section ${index} ${name || "(no name)"}`, whole };
}

function symbol_row(table, index, most) {
    const symbol = reader.symbol(table, index);
    if (!symbol) return null;
    const is_in_section = symbol.st_shndx > 0 && (symbol.st_shndx < 0xff00 || symbol.st_shndx === 0xffff);
    const { name: where, whole: whole_where } = is_in_section ? section_name(symbol.section, most) : { name: "", whole: null };
    return { ...symbol, ...reader.name_words(symbol.name, most), where, whole_where, is_in_section };
}

function relocation_row(table, index, most) {
    const relocation = reader.relocation(table, index);
    if (!relocation) return null;
    const linked = reader.section(table);
    const symbol = symbol_row(linked.sh_link, relocation.symbol, most);
    const [name, whole] = symbol?.name ? [symbol.name, symbol.whole] : [symbol?.where ?? "", symbol?.whole_where ?? null];
    const type_name = RELOCATION_TYPES[reader.header().e_machine]?.[relocation.relocation_type];
    return { ...relocation, name, whole, type_name, linked: linked.sh_link, target: linked.sh_info };
}

function dynamic_row(table, index, most) {
    const entry = reader.dynamic(table, index);
    if (!entry) return null;
    const place = STRING_TAGS.includes(entry.d_tag) && reader.string(table, entry.d_un);
    return { ...entry, ...(place ? reader.name_words(place, most) : { name: "", whole: null }) };
}

function note_row(table, index, most) {
    const note = reader.note(table, index);
    return note && { ...note, ...reader.name_words(note.name, most), owner: note.name };
}

// The part that holds the byte at an offset, by halving.
function part_at(offset) {
    let [low, high] = [0, reader.parts.count];
    while (low < high) {
        const middle = (low + high) >> 1;
        const part = reader.part(middle);
        if (offset < part.start) high = middle;
        else if (offset >= part.start + part.len) low = middle + 1;
        else return { index: middle, ...part };
    }
    return null;
}

// ---- The findings of tables

// How many tables break a rule. What is said of each is made when it is drawn: there may be many.
function findings() {
    const { ei_data, e_shoff, sections } = reader.file();
    const headers = Array.from({ length: sections }, (_, index) => reader.section(index));
    faults = new Tables(reader.bytes(), ei_data !== 2, headers, e_shoff).findings();
    return faults.length;
}

function finding_row(it) {
    const { words: table, whole } = section_words(it.section);
    const place = place_of(it.at);
    return { ...it, ...place, table, wholes: [whole, place.whole] };
}

// What holds an offset of a sound file, in words, how many bytes that is, and the whole name of its symbol or section if it is cut.
function place_of(at) {
    const part = part_at(at);
    const section = part ? part.owner - ELFMAP.CONTENTS : -1;
    if (part?.owner === ELFMAP.SECTION_HEADERS) {
        const index = Math.floor((at - part.start) / 64);
        const { name, width } = LAYOUT.elfmap_section.fields.findLast((it) => part.start + 64 * index + it.at <= at);
        const { words, whole } = section_words(index);
        return { words: `${name}, which is ${reader.section(index)[name]}, of the header of ${words}`, length: width, whole };
    }
    if (!(section > 0)) return { words: "this byte", length: 1, whole: null };
    const kind = ENTRY_WORDS[reader.section(section).sh_type] ?? "byte";
    const size = kind === "byte" ? 1 : kind === "word" ? 4 : ENTRY_SIZES[reader.section(section).sh_type];
    const [index, within] = [Math.floor((at - part.start) / size), (at - part.start) % size];
    const symbol = kind === "symbol" ? symbol_row(section, index) : null;
    const name = kind === "symbol" ? ` ${symbol?.name || "(no name)"}` : "";
    const [field, next] = field_in(kind, within, size);
    const { words, whole } = section_words(section);
    return { words: `${field}${kind} ${index}${name} of ${words}`, length: next - within, whole: symbol?.whole ?? whole };
}

// The field of an entry that holds an offset in it, as the beginning of a sentence, and where it ends.
function field_in(kind, within, size) {
    const fields = Object.entries(ENTRY_FIELDS[kind] ?? {});
    const index = fields.findLastIndex(([, at]) => at <= within);
    return index < 0 ? ["", size] : [`${fields[index][0]} of `, fields[index + 1]?.[1] ?? size];
}

// ---- A search: the indexes of the rows that hold a text, in any column

async function search(kind, table, count, text) {
    const own = ++turn;
    const wanted = text.toLowerCase();
    const found = [];
    let next = performance.now() + MOST_MILLISECONDS;
    for (let from = 0; from < count; from++) {
        const [row] = QUESTIONS[kind](from, 1, table, MOST_SEARCHED);
        if (row && row_words(kind, row).some((it) => it.toLowerCase().includes(wanted))) found.push(from);
        if (performance.now() < next) continue;
        postMessage({ progress: from / count });
        await new Promise((go_on) => setTimeout(go_on));
        if (own !== turn) return null;
        next = performance.now() + MOST_MILLISECONDS;
    }
    return found;
}
