"use strict";
// What the module tells of a file in its memory. The module is the library for C: each of its answers is proved; nothing here reads a byte
// of the file itself, but for what is to be seen of it. ELFMAP has the constants of include/elfmap.h, and LAYOUT its structs: the size
// of each, and of each field its name, offset, width, whether it has a sign, and how many of them there are.

const PAGE = 65536;
// No file of more bytes is accepted: of a longer one so many are read, and one more.
const MOST_BYTES = 2 ** 30;
// So many characters of a name are shown, and the rest if somebody asks for it. A character has at most so many bytes.
const MOST_CHARACTERS = 200;
const LONGEST_CHARACTER = 4;
// So many bytes of a long name are put into words at once.
const MOST_OF_NAME = 1 << 20;

// What reads each struct of a layout.
function struct_readers(layout) {
    const readers = {};
    for (const [name, { fields }] of Object.entries(layout)) {
        const reads = fields.map((field) => [field.name, field.at, field_reader(field, readers)]);
        readers[name] = (view, at) => {
            const found = {};
            for (const [name, offset, read] of reads) found[name] = read(view, at + offset);
            return found;
        };
    }
    return readers;
}

function field_reader({ struct, count, width, signed }, readers) {
    if (struct) return readers[struct];
    if (count) return (view, at) => Array.from({ length: count }, (_, k) => view.getUint8(at + k));
    if (width === 8) return signed ? (view, at) => small(view.getBigInt64(at, true)) : (view, at) => small(view.getBigUint64(at, true));
    const get = `getUint${8 * width}`;
    return (view, at) => view[get](at, true);
}

// A number where one can hold it.
function small(number) {
    const found = Number(number);
    return Number.isSafeInteger(found) ? found : number;
}

class Reader {
    // A reader of a file of so many bytes, which are to be put at `bytes()`.
    constructor(module, layout, length) {
        this.module = module.exports;
        this.layout = layout;
        this.structs = struct_readers(layout);
        this.length = length;
        this.base = (Number(this.module.__heap_base.value) + 15) & ~15;
        this.next = this.base;
        for (const name of ["elfmap_fault", "elfmap_file", "elfmap_table", "elfmap_extent"]) this[name] = this.place(layout[name].size);
        this.record = this.place(256);
        this.text = this.place(PAGE);
        this.start = this.place(length);
        this.parts = { count: 0, at: this.next };
        this.opened = -1;
        this.last_note = { of: -1, behind: 0, next: 0 };
    }

    // ---- Memory

    // So many bytes of the module's memory, which is as long as it has to be; the place is a multiple of 16.
    place(size) {
        const at = this.next;
        this.next = at + ((size + 15) & ~15);
        this.hold(this.next);
        return at;
    }

    hold(end) {
        const lacking = end - this.module.memory.buffer.byteLength;
        if (lacking > 0) this.module.memory.grow(Math.ceil(lacking / PAGE));
    }

    view() {
        if (this.seen?.buffer !== this.module.memory.buffer) this.seen = new DataView(this.module.memory.buffer);
        return this.seen;
    }

    // Bytes of the file, without a copy: until memory grows.
    bytes(from = 0, length = this.length - from) {
        return new Uint8Array(this.module.memory.buffer, this.start + from, length);
    }

    call(name, ...words) {
        return this.module[name](...words.map(BigInt)) & 1;
    }

    // A struct at a place, as an object of numbers.
    struct(name, at) {
        return this.structs[name](this.view(), at);
    }

    // ---- The verdict

    // The first rule that the file breaks and where; null where it breaks none. Without a buffer the answer is the rule, or how long the
    // buffer has to be: that of a sound file is not empty.
    verdict() {
        this.validated(this.next, 0);
        let fault = this.struct("elfmap_fault", this.elfmap_fault);
        if (fault.rule !== ELFMAP.SHORT_ROOM) return fault;
        const room = this.place(fault.at * this.layout.elfmap_extent.size);
        const kept = this.validated(room, fault.at);
        fault = this.struct("elfmap_fault", this.elfmap_fault);
        this.next = room;
        return kept ? null : fault;
    }

    validated(room, count) {
        return this.call("elfmap_verdict_in", this.start, this.length, room, count, this.elfmap_fault);
    }

    // ---- The records; null where there is none

    // What a call puts into a struct.
    answer(struct, name, ...words) {
        return this.call(name, ...words, this.record) ? this.struct(struct, this.record) : null;
    }

    file() {
        return this.call("elfmap_file", this.start, this.length, this.elfmap_file) ? this.struct("elfmap_file", this.elfmap_file) : null;
    }

    // The same where section header 0 does not lie in the file, by what the header alone says. No section is there then.
    file_of_header({ e_ident, e_phoff, e_phnum, e_shoff, e_shnum }) {
        const own = { e_phoff, segments: e_phnum === 0xffff ? 0 : e_phnum, ei_data: e_ident[5] };
        const { fields, size } = this.layout.elfmap_file;
        const view = this.view();
        for (let k = 0; k < size; k++) view.setUint8(this.elfmap_file + k, 0);
        for (const { name, at, width } of fields) {
            if (!own[name]) continue;
            width === 8 ? view.setBigUint64(this.elfmap_file + at, BigInt(own[name]), true) : view.setUint8(this.elfmap_file + at, own[name]);
        }
        return { ...this.struct("elfmap_file", this.elfmap_file), e_shoff, sections: e_shnum };
    }

    // The lowest owner from one on that has a byte; null where there is none.
    owner(offset, first) {
        const found = this.call("elfmap_owner", this.elfmap_file, this.start, this.length, offset, first, this.record);
        return found ? small(this.view().getBigUint64(this.record, true)) : null;
    }

    header() {
        return this.answer("elfmap_header", "elfmap_header", this.start, this.length);
    }

    section(index) {
        return this.answer("elfmap_section", "elfmap_section", this.elfmap_file, this.start, this.length, index);
    }

    segment(index) {
        return this.answer("elfmap_segment", "elfmap_segment", this.elfmap_file, this.start, this.length, index);
    }

    // The name of a section, as an extent of the file.
    name(index) {
        return this.answer("elfmap_extent", "elfmap_name", this.elfmap_file, this.start, this.length, index);
    }

    // ---- The parts: what each byte of a sound file belongs to

    // How many there are. A buffer for them has to be at least as long as the first call says, and is then long enough.
    account() {
        this.next = this.parts.at;
        this.put_parts(this.next, 0);
        const { at: most } = this.struct("elfmap_fault", this.elfmap_fault);
        this.parts.at = this.place(most * this.layout.elfmap_part.size);
        this.put_parts(this.parts.at, most);
        this.parts.count = Number(this.view().getBigUint64(this.record, true));
        return this.parts.count;
    }

    put_parts(room, count) {
        this.call("elfmap_parts", this.start, this.length, room, count, this.record, this.elfmap_fault);
    }

    part(index) {
        const part = this.struct("elfmap_part", this.parts.at + index * this.layout.elfmap_part.size);
        return { ...part, owner: part.owner === ELFMAP.GAP ? null : part.owner };
    }

    // ---- Tables

    // The table in a section; null where it holds none.
    table(section) {
        return this.has_table(section) ? this.struct("elfmap_table", this.elfmap_table) : null;
    }

    has_table(section) {
        if (this.opened !== section) {
            this.opened = this.call("elfmap_table", this.elfmap_file, this.start, this.length, section, this.elfmap_table) ? section : -1;
        }
        return this.opened === section;
    }

    entry(struct, name, section, index) {
        if (!this.has_table(section)) return null;
        return this.answer(struct, name, this.elfmap_table, this.start, this.length, index);
    }

    symbol(section, index) {
        return this.entry("elfmap_symbol", "elfmap_symbol", section, index);
    }

    relocation(section, index) {
        return this.entry("elfmap_relocation", "elfmap_relocation", section, index);
    }

    dynamic(section, index) {
        return this.entry("elfmap_dynamic", "elfmap_dynamic", section, index);
    }

    // The note after the last one that was asked for is found at once; any other note by going over those before it.
    note(section, index) {
        const { of, behind, next } = this.last_note;
        const [call, place] = of === section && behind === index ? ["elfmap_note_at", next] : ["elfmap_note", index];
        const note = this.entry("elfmap_note", call, section, place);
        if (note) this.last_note = { of: section, behind: index + 1, next: note.next };
        return note;
    }

    // A string of the table's string table, as an extent of the file.
    string(section, offset) {
        if (!this.has_table(section)) return null;
        return this.answer("elfmap_extent", "elfmap_string", this.elfmap_table, this.start, this.length, offset);
    }

    // The symbol of a name, by a hash table.
    find(section, name) {
        if (!this.has_table(section) || name.length > PAGE) return null;
        new Uint8Array(this.module.memory.buffer, this.text, name.length).set(name);
        const found = this.call("elfmap_find", this.elfmap_table, this.start, this.length, this.text, name.length, this.record);
        return found ? this.view().getUint32(this.record, true) : null;
    }

    // The bytes of an extent of the file as text: other characters than those that are printed as escapes.
    words(extent) {
        return words_of(this.bytes(extent.start, extent.len));
    }

    // A name as it is shown: its first characters, and if it has more than these, "…" and the extent of all of it.
    name_words(extent, most = MOST_CHARACTERS) {
        if (extent.len <= most) return { name: this.words(extent), whole: null };
        const front = this.bytes(extent.start, Math.min(extent.len, LONGEST_CHARACTER * (most + 1)));
        const characters = characters_of(front.length < extent.len ? front.subarray(0, character_end(front)) : front);
        if (characters.length <= most && front.length === extent.len) return { name: this.words(extent), whole: null };
        return { name: `${visible([].concat(characters.slice(0, most)).join(""))}…`, whole: { start: extent.start, len: extent.len } };
    }

    // A part of a name from an offset of the file on, as text, and where it ends.
    part_of_name(from, end) {
        const bytes = this.bytes(from, Math.min(end - from, MOST_OF_NAME));
        const length = from + bytes.length < end ? character_end(bytes) : bytes.length;
        return { text: words_of(bytes.subarray(0, length)), next: from + length };
    }
}

// A byte order mark is a character of a name, as any other: the decoder would drop one at the start.
const UTF8 = new TextDecoder("utf-8", { fatal: true, ignoreBOM: true });
const LONE_HALF = 0xdc00;

// Bytes as text: UTF-8 where they are that; what can't be seen is escaped, and each byte that is no UTF-8 is \xHH. A backslash is written
// twice: so two names differ on the page too.
function words_of(bytes) {
    if (bytes.length < 256 && bytes.every((it) => it >= 32 && it < 127 && it !== 92)) return String.fromCharCode(...bytes);
    return visible(decoded(bytes));
}

// Bytes that are no UTF-8 become what no UTF-8 is decoded to: the lower halves of pairs, alone.
function decoded(bytes) {
    try {
        return UTF8.decode(bytes);
    } catch {
        return Array.from(bytes, (it) => String.fromCharCode(it < 128 ? it : LONE_HALF + it)).join("");
    }
}

// Bytes as characters, of which none is a part of an escape: a list, or of ASCII and of no UTF-8 a text.
function characters_of(bytes) {
    const text = decoded(bytes);
    return text.length === bytes.length ? text : Array.from(text);
}

function visible(text) {
    return text.replace(/[\x00-\x1f\\\x7f-\x9f\u2028\u2029\u202a-\u202e\u2066-\u2069\ufeff\udc80-\udcff]/gu, escaped);
}

// Where the last character of bytes that were cut begins, so that none is cut in two; their end where that is of ASCII, or no UTF-8.
function character_end(bytes) {
    let end = bytes.length;
    while (end > bytes.length - LONGEST_CHARACTER && end > 1 && (bytes[end - 1] & 0xc0) === 0x80) end--;
    return bytes[end - 1] >= 0xc0 ? end - 1 : bytes.length;
}

function escaped(character) {
    if (character === "\\") return "\\\\";
    const code = character.charCodeAt(0);
    // A byte of ASCII, or one that is no UTF-8. The character U+0080 is not the byte 0x80.
    const byte = code < 128 ? code : code - LONE_HALF;
    return byte >= 0 && byte < 256 ? `\\x${byte.toString(16).padStart(2, "0")}` : `\\u${code.toString(16).padStart(4, "0")}`;
}
