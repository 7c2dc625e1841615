"use strict";
// page_reads_as_show.js MODULE LAYOUT FILE..: of each file what the page's reader and its check of tables say of it, in the lines that
// `elfmap show` prints; for tools/test page to compare. Groups that break no rule have no lines here. Run by node.
const fs = require("fs");
const path = require("path");
const { pathToFileURL } = require("url");
const vm = require("vm");

const [, , module_path, layout_path, ...paths] = process.argv;
const LAYOUT = JSON.parse(fs.readFileSync(layout_path, "utf8"));
// Beside the folder by which this script was named, also where that is a link.
const page = path.resolve(__dirname, "../../page");
for (const name of ["names.js", "declared.js", "words.js", "reader.js", "tables.js"]) {
    vm.runInThisContext(fs.readFileSync(`${page}/${name}`, "utf8"), { filename: pathToFileURL(`${page}/${name}`).href });
}
// Classes and constants of a script are no properties of its global object: the last line gives what is used here.
const { Reader, Tables, TABLE_RULES, KINDS, STRING_TAGS, hex } = vm.runInThisContext("({ Reader, Tables, TABLE_RULES, KINDS, STRING_TAGS, hex })");
const compiled = new WebAssembly.Module(fs.readFileSync(module_path));
const GAP_BYTES = 16;

function digits(bytes) {
    return bytes.length ? Buffer.from(bytes).toString("hex") : "-";
}

// A name as the lines have it: as it is if it is plain, otherwise in hexadecimal.
function name_words(bytes) {
    const is_plain = bytes.length > 0 && bytes[0] !== 35 && !(bytes.length === 1 && bytes[0] === 45) && bytes.every((it) => it > 32 && it < 127);
    if (is_plain) return Buffer.from(bytes).toString("latin1");
    return bytes.length ? `#${digits(bytes)}` : "-";
}

function* lines_of(reader) {
    const fault = reader.verdict();
    if (fault) return void (yield `refused ${fault.rule} ${fault.at}`);
    const [header, file] = [reader.header(), reader.file()];
    yield `file ${header.e_ident[5] === 2 ? "big" : "little"} ${header.e_type} ${header.e_machine} ${hex(header.e_entry)} ${hex(header.e_flags)}`;
    const count = reader.account();
    for (let k = 0; k < count; k++) yield part_line(reader, reader.part(k));
    for (let k = 0; k < file.sections; k++) yield section_line(reader, k);
    for (let k = 0; k < file.segments; k++) yield segment_line(reader.segment(k), k);
    const headers = Array.from({ length: file.sections }, (_, k) => reader.section(k));
    const tables = new Tables(reader.bytes(), file.ei_data !== 2, headers, file.e_shoff);
    for (const [k, { sh_type }] of headers.entries()) {
        const refused = TABLE_RULES[sh_type] && tables.verdict(k);
        if (refused) yield `refused ${k} ${refused.rule} ${refused.at}`;
        else yield* table_lines(reader, k);
    }
}

function part_line(reader, part) {
    const owners = ["header", "sections", "segments"];
    const gap = reader.bytes(part.start, Math.min(part.len, GAP_BYTES));
    const owner = part.owner === null ? `gap ${digits(gap)}` : owners[part.owner] ?? `content ${part.owner - 3}`;
    return `part ${hex(part.start)} ${hex(part.len)} ${owner}`;
}

function section_line(reader, k) {
    const it = reader.section(k);
    const place = reader.name(k);
    return `section ${k} ${it.sh_type} ${hex(it.sh_flags)} ${hex(it.sh_addr)} ${hex(it.sh_offset)} ${hex(it.sh_size)} ${it.sh_link} ${it.sh_info} ` +
        `${hex(it.sh_addralign)} ${hex(it.sh_entsize)} ${name_words(reader.bytes(place.start, place.len))}`;
}

function segment_line(it, k) {
    return `segment ${k} ${it.p_type} ${hex(it.p_flags)} ${hex(it.p_offset)} ${hex(it.p_vaddr)} ${hex(it.p_paddr)} ${hex(it.p_filesz)} ` +
        `${hex(it.p_memsz)} ${hex(it.p_align)}`;
}

function* table_lines(reader, section) {
    const type = reader.section(section).sh_type;
    const table = reader.table(section);
    if (type === 5 && table) yield hash_line(reader, section, table);
    if (!KINDS[type] || !table) return;
    const [line, entry] = { symbols: [symbol_line, "symbol"], relocations: [relocation_line, "relocation"], dynamic: [dynamic_line, "dynamic"],
        notes: [note_line, "note"] }[KINDS[type]];
    for (let k = 0; k < table.entries; k++) yield line(reader, section, k, reader[entry](section, k), type);
}

function symbol_line(reader, section, k, it) {
    const places = { 0: "undef", 0xfff1: "abs", 0xfff2: "common" };
    const is_in_section = it.st_shndx < 0xff00 || it.st_shndx === 0xffff;
    const place = places[it.st_shndx] ?? (is_in_section ? it.section : "reserved");
    return `symbol ${section} ${k} ${it.st_info >> 4} ${it.st_info & 15} ${it.st_other} ${place} ${hex(it.st_value)} ${hex(it.st_size)} ` +
        name_words(reader.bytes(it.name.start, it.name.len));
}

function relocation_line(reader, section, k, it, type) {
    return `reloc ${section} ${k} ${hex(it.r_offset)} ${it.symbol} ${it.relocation_type} ${type === 4 ? it.r_addend : "-"}`;
}

function dynamic_line(reader, section, k, it) {
    const place = STRING_TAGS.includes(it.d_tag) ? reader.string(section, it.d_un) : null;
    return `dynamic ${section} ${it.d_tag} ${hex(it.d_un)}${place ? ` ${name_words(reader.bytes(place.start, place.len))}` : ""}`;
}

function note_line(reader, section, k, it) {
    return `note ${section} ${it.n_type} ${name_words(reader.bytes(it.name.start, it.name.len))} ${digits(reader.bytes(it.desc.start, it.desc.len))}`;
}

// The buckets and the chain words; and each symbol from 1 on that has a name is found by it, or another of the same name.
function hash_line(reader, section) {
    const content = reader.table(section).content;
    const little = reader.file().ei_data !== 2;
    const word = (k) => new DataView(reader.module.memory.buffer).getUint32(reader.start + content.start + 4 * k, little);
    const linked = reader.section(section).sh_link;
    const count = Math.min(reader.table(linked)?.entries ?? 0, 50);
    for (let k = 1; k < count; k++) {
        const place = reader.symbol(linked, k).name;
        const name = reader.bytes(place.start, place.len).slice();
        const found = reader.find(section, name);
        const other = found === null ? null : reader.symbol(linked, found)?.name;
        const is_same = other && Buffer.compare(Buffer.from(name), Buffer.from(reader.bytes(other.start, other.len))) === 0;
        if (!is_same) return `hash ${section} lost symbol ${k}`;
    }
    return `hash ${section} ${word(0)} ${word(1)}`;
}

for (const path of paths) {
    const bytes = fs.readFileSync(path);
    const reader = new Reader(new WebAssembly.Instance(compiled), LAYOUT, bytes.length);
    reader.bytes().set(bytes);
    console.log(`-- ${path}`);
    for (const line of lines_of(reader)) console.log(line);
}
