"use strict";
// What the worker says of the parts of a file that breaks a rule, as far as its records lie in it; and how many bytes each part of any file
// has. Each record comes from the module.

// Parts that overlap are drawn side by side, in so many lines.
const MOST_LANES = 8;
// So many parts that pass the end of the file are named.
const MOST_PAST_END = 16;

// What the page draws of a refused file: how many headers lie in it, its parts in lines, what passes its end, its tables, and the sections
// that share the byte of the fault; null where it is no ELF-64 file.
function refused(fault) {
    const header = reader.header();
    if (!header || !is_elf_64(header)) return null;
    const file = reader.file() ?? reader.file_of_header(header);
    const counts = { sections: header_count(file.e_shoff, file.sections, 64), segments: header_count(file.e_phoff, file.segments, 56) };
    const parts = ranges(file, counts);
    const lanes = lanes_of(parts.filter((it) => it.start < reader.length));
    const past = parts.filter((it) => it.start + it.len > reader.length);
    const most = Math.floor(reader.length / 16);
    const own_tables = tables(counts.sections).map((it) => ({ ...it, entries: Math.min(Number(it.entries), most) }));
    const named = past.slice(0, MOST_PAST_END).map(past_words);
    return { file, counts, ...lanes, past: named, more: past.length - named.length, tables: own_tables, sharing: sharing(fault) };
}

function is_elf_64({ e_ident }) {
    return e_ident.slice(0, 5).join() === "127,69,76,70,2";
}

// How many headers of a table lie in the file.
function header_count(start, count, size) {
    const room = Math.floor((reader.length - Number(start)) / size);
    return Number(start) && room > 0 ? Math.min(Number(count), room) : 0;
}

// The header, the tables and the contents, where they are to be, in ascending order.
function ranges(file, counts) {
    const found = [{ owner: ELFMAP.HEADER, start: 0, len: 64 }];
    const add = (owner, start, len) => { if (len > 0) found.push({ owner, start: Number(start), len: Number(len) }); };
    if (Number(file.e_shoff)) add(ELFMAP.SECTION_HEADERS, file.e_shoff, 64 * Number(file.sections));
    if (Number(file.e_phoff)) add(ELFMAP.PROGRAM_HEADERS, file.e_phoff, 56 * Number(file.segments));
    for (let index = 1; index < counts.sections; index++) {
        const section = reader.section(index);
        if (has_content(section)) add(ELFMAP.CONTENTS + index, section.sh_offset, section.sh_size);
    }
    return found.sort((a, b) => a.start - b.start || a.len - b.len);
}

// The parts side by side: each is in the first line that is free where it begins; the gaps are in the first one. Those that no line has
// room for are counted.
function lanes_of(parts) {
    const lanes = [[]];
    const ends = [0];
    let [at, hidden] = [0, 0];
    const gap = (to) => { if (to > at) lanes[0].push({ owner: null, start: at, len: to - at }); };
    for (const { owner, start, len } of parts) {
        const end = Math.min(start + len, reader.length);
        gap(start);
        at = Math.max(at, end);
        let lane = ends.findIndex((it) => it <= start);
        if (lane < 0 && ends.length < MOST_LANES) lane = ends.push(0) - 1;
        if (lane < 0) {
            hidden++;
            continue;
        }
        (lanes[lane] ??= []).push({ owner, start, len: end - start });
        ends[lane] = end;
    }
    gap(reader.length);
    return { lanes, hidden };
}

function past_words({ owner, start, len }) {
    const titles = { [ELFMAP.HEADER]: "the ELF header", [ELFMAP.SECTION_HEADERS]: "the section header table", [ELFMAP.PROGRAM_HEADERS]: "the program header table" };
    const words = titles[owner] ?? section_words(owner - ELFMAP.CONTENTS).words;
    return `${words} [${hex(start)}, ${hex(start + len)})`;
}

// The sections that have a byte, if it is one that several parts share.
function sharing(fault) {
    if (fault.rule !== SHARED_BYTE) return [];
    const found = [];
    for (let owner = reader.owner(fault.at, ELFMAP.CONTENTS); owner !== null && found.length < MOST_OWNERS; owner = reader.owner(fault.at, owner + 1)) {
        found.push(owner - ELFMAP.CONTENTS);
    }
    return found;
}

// ---- Sizes

let sizes = null;

// How many rows the table of sizes has.
function size_count() {
    sizes = sizes_of(all_parts());
    return sizes.length;
}

// The parts and gaps of a file, each byte in one of them: of a byte that several have it is the first one.
function all_parts() {
    if (reader.parts.count) return Array.from({ length: reader.parts.count }, (_, k) => reader.part(k));
    const header = reader.header();
    if (!header || !is_elf_64(header)) return [];
    const file = reader.file() ?? reader.file_of_header(header);
    const counts = { sections: header_count(file.e_shoff, file.sections, 64), segments: 0 };
    const found = [];
    let at = 0;
    const take = (owner, start, end) => { if (end > start) found.push({ owner, start, len: end - start }); };
    for (const { owner, start, len } of ranges(file, counts)) {
        const end = Math.min(start + len, reader.length);
        take(null, at, Math.min(start, reader.length));
        take(owner, Math.max(start, at), end);
        at = Math.max(at, end);
    }
    take(null, at, reader.length);
    return found;
}

// The bytes of each owner in the file and in memory, the largest first.
function sizes_of(parts) {
    const found = new Map();
    const row = (owner) => found.get(owner) ?? found.set(owner, { owner, bytes: 0, memory: 0 }).get(owner);
    for (const { owner, len } of parts) row(owner).bytes += len;
    const count = parts.length ? header_count(reader.file()?.e_shoff ?? 0, reader.file()?.sections ?? 0, 64) : 0;
    for (let index = 1; index < count; index++) {
        const { sh_type, sh_flags, sh_size } = reader.section(index);
        if (sh_type !== 0 && BigInt(sh_flags) & 2n && Number(sh_size)) row(ELFMAP.CONTENTS + index).memory = Number(sh_size);
    }
    return [...found.values()].sort((a, b) => b.bytes - a.bytes || b.memory - a.memory);
}

function size_row(index, most) {
    const it = sizes[index];
    if (!it) return null;
    const titles = { [ELFMAP.HEADER]: "[the ELF header]", [ELFMAP.SECTION_HEADERS]: "[the section header table]", [ELFMAP.PROGRAM_HEADERS]: "[the program header table]" };
    const section = it.owner === null || it.owner < ELFMAP.CONTENTS ? -1 : it.owner - ELFMAP.CONTENTS;
    const named = section < 0 ? { name: it.owner === null ? "[gaps]" : titles[it.owner], whole: null } : section_name(section, most);
    return { bytes: it.bytes, memory: it.memory, share: it.bytes / reader.length, section, ...named };
}
