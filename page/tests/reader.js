"use strict";
// The page's reader and worker in node, as far as they need no module: names as text, and the fields of structs.
const assert = require("node:assert/strict");
const { test } = require("node:test");
const { made_worker } = require("./made.js");

const WORDS = made_worker("Reader", "words_of", "character_end", "small", "struct_readers", "field_in", "Tables", "MOST_CHARACTERS", "MOST_OF_NAME");
const { Reader, words_of } = WORDS;
const bytes = (...own) => Uint8Array.from(own.flatMap((it) => (typeof it === "number" ? [it] : [...Buffer.from(it)])));

// A reader of these bytes, without a module.
function reader_of(content) {
    const memory = { buffer: content.buffer };
    return Object.assign(Object.create(Reader.prototype), { module: { memory }, start: 0, length: content.length });
}

test("a name is text, and what can't be seen of it is escaped", () => {
    for (const [name, shown] of [
        ["plain name", "plain name"],
        ["naïve ✓", "naïve ✓"],
        ["\x00\x1b\x1f\x7f", "\\x00\\x1b\\x1f\\x7f"],
        ["\u0080\u009f\u00a0", "\\u0080\\u009f\u00a0"],
        ["\u202e\u2066\u2028\ufeff", "\\u202e\\u2066\\u2028\\ufeff"],
        ["\ufeffn", "\\ufeffn"],
        ["\\x1b", "\\\\x1b"],
        ["😀", "😀"],
    ]) assert.equal(words_of(bytes(name)), shown);
    assert.equal(words_of(bytes("é", 0xff, "\\", 0x1b)), "\\xc3\\xa9\\xff\\\\\\x1b");
    assert.equal(words_of(bytes(0x80)), "\\x80");
});

test("two names differ in print", () => {
    const pieces = ["\\", "x", "1", "b", "u", "0", "8", 0x1b, 0x80, 0xc2].map((it) => bytes(it));
    const shown = new Map();
    let names = [Buffer.alloc(0)];
    for (let length = 1; length <= 4; length++) {
        names = names.flatMap((it) => pieces.map((piece) => Buffer.concat([it, piece])));
        for (const name of names) {
            const words = words_of(new Uint8Array(name));
            assert.equal(shown.get(words) ?? name.toString("hex"), name.toString("hex"));
            shown.set(words, name.toString("hex"));
        }
    }
});

test("of a long name the first two hundred characters are shown", () => {
    const shown = (content) => {
        const { name, whole } = reader_of(content).name_words({ start: 0, len: content.length });
        return [name, whole && whole.len];
    };
    assert.deepEqual(shown(bytes("n".repeat(200))), ["n".repeat(200), null]);
    assert.deepEqual(shown(bytes("n".repeat(201))), [`${"n".repeat(200)}…`, 201]);
    assert.deepEqual(shown(bytes("é".repeat(200))), ["é".repeat(200), null]);
    assert.deepEqual(shown(bytes("é".repeat(201))), [`${"é".repeat(200)}…`, 402]);
    assert.deepEqual(shown(bytes("😀".repeat(201))), [`${"😀".repeat(200)}…`, 804]);
    assert.deepEqual(shown(bytes("n", "é".repeat(600))), [`n${"é".repeat(199)}…`, 1201]);
    assert.deepEqual(shown(bytes("\\".repeat(201))), [`${"\\\\".repeat(200)}…`, 201]);
    const no_text = new Uint8Array(201).fill(0xff);
    assert.deepEqual(shown(no_text), [`${"\\xff".repeat(200)}…`, 201]);
    assert.deepEqual(shown(no_text.slice(1)), ["\\xff".repeat(200), null]);
    assert.equal(reader_of(bytes("n".repeat(61))).name_words({ start: 0, len: 61 }, 60).name, `${"n".repeat(60)}…`);
});

test("a very long name comes in parts, and no character is cut in two", () => {
    for (const name of [`n${"é".repeat(600_000)}`, `nn${"✓".repeat(400_000)}`, "n".repeat(1_200_000), `nnn${"😀".repeat(300_000)}`]) {
        const content = bytes(name);
        const reader = reader_of(content);
        const parts = [];
        let at = 0;
        while (at < content.length) {
            const { text, next } = reader.part_of_name(at, content.length);
            parts.push(text);
            assert.ok(next > at && next - at <= WORDS.MOST_OF_NAME);
            at = next;
        }
        assert.equal(parts.length, 2);
        assert.ok(parts.join("") === name);
    }
    // What is no UTF-8 may be cut anywhere.
    assert.deepEqual([[0x80, 0x80, 0x80, 0x80, 0x80], [0x41, 0x42]].map((it) => WORDS.character_end(Uint8Array.from(it))), [5, 2]);
});

test("a number that is not whole as a number stays as it is", () => {
    assert.equal(WORDS.small(2n ** 53n - 1n), 2 ** 53 - 1);
    assert.equal(WORDS.small(2n ** 53n), 2n ** 53n);
    assert.equal(WORDS.small(-(2n ** 63n)), -(2n ** 63n));
});

test("the fields of a struct are read where they are, with their signs", () => {
    const layout = { extent: { size: 16, fields: [{ name: "start", at: 0, width: 8 }, { name: "len", at: 8, width: 8 }] } };
    layout.it = { size: 40, fields: [{ name: "in", at: 0, width: 16, struct: "extent" }, { name: "signed", at: 16, width: 8, signed: true },
        { name: "half", at: 24, width: 2 }, { name: "bytes", at: 26, width: 1, count: 3 }, { name: "word", at: 32, width: 4 }] };
    const content = new DataView(new ArrayBuffer(40));
    content.setBigUint64(0, 2n ** 60n, true);
    content.setBigUint64(8, 7n, true);
    content.setBigInt64(16, -5n, true);
    content.setUint16(24, 0xfff1, true);
    [1, 2, 3].forEach((it, k) => content.setUint8(26 + k, it));
    content.setUint32(32, 0xffffffff, true);
    const { in: extent, signed, half, bytes: own, word } = WORDS.struct_readers(layout).it(content, 0);
    assert.deepEqual([extent.start, extent.len, signed, half, [...own], word], [2n ** 60n, 7, -5, 0xfff1, [1, 2, 3], 0xffffffff]);
});

test("the field of an entry that holds an offset", () => {
    const found = (kind, within, size) => [...WORDS.field_in(kind, within, size)];
    assert.deepEqual(found("symbol", 6, 24), ["st_shndx of ", 8]);
    assert.deepEqual(found("symbol", 23, 24), ["st_size of ", 24]);
    assert.deepEqual(found("relocation", 9, 16), ["r_info of ", 16]);
    assert.deepEqual(found("relocation", 16, 24), ["r_addend of ", 24]);
    assert.deepEqual(found("entry", 8, 16), ["d_un of ", 16]);
    assert.deepEqual(found("word", 0, 4), ["", 4]);
});

// The structs of include/elfmap.h that are read here, and one that takes the record of each kind.
const word = (name, at) => ({ name, at, width: 8 });
const RECORDS = ["header", "section", "segment", "symbol", "relocation", "dynamic", "note"].map((it) => `elfmap_${it}`);
const STRUCTS = {
    ...Object.fromEntries(["elfmap_file", "elfmap_table", ...RECORDS].map((it) => [it, { size: 256, fields: [word("first", 0)] }])),
    elfmap_fault: { size: 16, fields: [word("at", 0), { name: "rule", at: 8, width: 2 }] },
    elfmap_extent: { size: 16, fields: [word("start", 0), word("len", 8)] },
    elfmap_part: { size: 24, fields: [word("start", 0), word("len", 8), word("owner", 16)] },
};

// A reader of so many bytes with a module of these calls, whose arguments are numbers, and to which `put` puts 64-bit words in memory.
function called(length, calls) {
    const memory = new WebAssembly.Memory({ initial: 1 });
    const put = (at, ...words) => words.forEach((it, k) => new DataView(memory.buffer).setBigUint64(at + 8 * k, BigInt(it), true));
    const own = Object.entries(calls(put)).map(([name, answer]) => [name, (...words) => Number(answer(...words.map(Number)))]);
    return new Reader({ exports: { memory, __heap_base: { value: 1024 }, ...Object.fromEntries(own) } }, STRUCTS, length);
}

test("a verdict has as long a buffer as it asks for", () => {
    // What is wrong is said at once: by rules 1 to 32; otherwise a file of two sections needs five extents (include/elfmap.h).
    const told = (rule, rule_with_buffer) => {
        const counts = [];
        const reader = called(64, (put) => ({
            elfmap_verdict_in: (bytes, length, buffer, count, fault) => {
                counts.push(count);
                const found = count < 5 ? rule : rule || rule_with_buffer;
                if (found) put(fault, 7, found);
                else if (count < 5) put(fault, 5, 0);
                put(buffer, ...Array(2 * count).fill(2n ** 64n - 1n));
                return count >= 5 && !found;
            },
        }));
        const { next } = reader;
        const fault = reader.verdict();
        assert.equal(reader.next, next);
        return [counts, fault && [fault.rule, fault.at]];
    };
    assert.deepEqual(told(8, 0), [[0], [8, 7]]);
    assert.deepEqual(told(0, 33), [[0, 5], [33, 7]]);
    assert.deepEqual(told(0, 0), [[0, 5], null]);
});

test("parts are as many as there are, and not as many as there is room for", () => {
    const rows = [[0, 64, 0], [64, 8, 2n ** 64n - 1n], [72, 56, 1]];
    const reader = called(128, (put) => ({
        elfmap_parts: (bytes, length, buffer, count, parts, fault) => {
            if (count < 13) return put(fault, 13, 0), false;
            put(buffer, ...rows.flat());
            put(parts, rows.length);
            return true;
        },
    }));
    const { at } = reader.parts;
    for (const _ of [1, 2]) {
        assert.equal(reader.account(), 3);
        assert.deepEqual([0, 1, 2].map((k) => Object.values(reader.part(k))), [[0, 64, 0], [64, 8, null], [72, 56, 1]]);
        // Those of another time are where they were.
        assert.deepEqual([reader.parts.at, reader.next], [at, at + ((13 * 24 + 15) & ~15)]);
    }
});

test("what is not there is null", () => {
    const records = ["header", "section", "segment", "symbol", "relocation", "dynamic"];
    const calls = [...records, "file", "table", "name", "note", "note_at", "string", "find"].map((it) => `elfmap_${it}`);
    // What a reader says of everything, where these calls of the module return true.
    const told = (...known) => {
        const reader = called(64, () => Object.fromEntries(calls.map((it) => [it, () => known.includes(it)])));
        const records = { header: [], section: [1], segment: [1], name: [1], file: [], table: [1] };
        const entries = { symbol: [1, 1], relocation: [1, 1], dynamic: [1, 1], note: [1, 0], string: [1, 1], find: [1, bytes("f")] };
        const asked = Object.entries({ ...records, ...entries });
        return asked.filter(([name, words]) => reader[name](...words) !== null).map(([name]) => name);
    };
    assert.deepEqual(told(), []);
    // Entries are those of a table.
    const others = calls.filter((it) => it !== "elfmap_table");
    assert.deepEqual(told(...others), ["header", "section", "segment", "name", "file"]);
    assert.deepEqual(told("elfmap_table"), ["table"]);
    assert.deepEqual(told("elfmap_table", ...others).length, 12);
});

test("the owners of a byte are asked for one after the other", () => {
    const reader = called(64, (put) => ({
        elfmap_owner: (file, bytes, length, offset, first, owner) => {
            const found = [4, 9, 2 ** 60].find((it) => it >= first);
            if (offset !== 50 || found === undefined) return false;
            put(owner, found);
            return true;
        },
    }));
    assert.deepEqual([[50, 0], [50, 4], [50, 5], [51, 0]].map(([offset, first]) => reader.owner(offset, first)), [4, 4, 9, null]);
    assert.equal(reader.owner(50, 10), 2n ** 60n);
});

test("without section header 0 a file has the program headers of its header, and no sections", () => {
    const fields = [["e_phoff", 8], ["e_shoff", 8], ["sections", 8], ["segments", 8], ["name_table", 8], ["ei_data", 1]];
    const layout = { ...STRUCTS, elfmap_file: { size: 48, fields: fields.map(([name, width], k) => ({ name, width, at: 8 * k })) } };
    const memory = new WebAssembly.Memory({ initial: 1 });
    const reader = new Reader({ exports: { memory, __heap_base: { value: 1024 } } }, layout, 64);
    new Uint8Array(memory.buffer).fill(255);
    const header = { e_ident: [127, 69, 76, 70, 2, 2], e_phoff: 2n ** 60n, e_phnum: 7, e_shoff: 9000, e_shnum: 12 };
    const own = { e_phoff: 2n ** 60n, e_shoff: 9000, sections: 12, segments: 7, name_table: 0, ei_data: 2 };
    assert.deepEqual({ ...reader.file_of_header(header) }, own);
    // The module sees no section.
    assert.deepEqual({ ...reader.struct("elfmap_file", reader.elfmap_file) }, { ...own, e_shoff: 0, sections: 0 });
    assert.equal(reader.file_of_header({ ...header, e_phnum: 0xffff }).segments, 0);
});

test("a name is looked for if it is as long as the buffer for it", () => {
    let asked = [];
    const find = (table, at, length, name, name_length) => (asked.push(name_length), true);
    const reader = called(64, () => ({ elfmap_table: () => true, elfmap_find: find }));
    assert.equal(reader.find(1, new Uint8Array(65536)), 0);
    assert.equal(reader.find(1, new Uint8Array(65537)), null);
    assert.deepEqual(asked, [65536]);
});

test("a note is looked for in its own section", () => {
    const reader = reader_of(bytes());
    const asked = [];
    const entry = (struct, call, section, place) => asked.push([call, section, place]) && { next: 1000 * section + place + 16 };
    Object.assign(reader, { entry, last_note: { of: -1, behind: 0, next: 0 } });
    for (const [section, index] of [[1, 0], [1, 1], [2, 2], [2, 3], [1, 2]]) reader.note(section, index);
    // The one behind the last note of its section is at an offset, and any other one has an index.
    const right = [["elfmap_note", 1, 0], ["elfmap_note_at", 1, 1016], ["elfmap_note", 2, 2], ["elfmap_note_at", 2, 2018], ["elfmap_note", 1, 2]];
    assert.deepEqual(asked, right);
});

// The functions of the worker, with a reader of these answers. A section without a name of its own is called by its index.
function answered(reader, ...names) {
    const { read_by, ...own } = made_worker("read_by: (it) => { reader = it; }", ...names);
    const section = (index) => ({ sh_type: 1, sh_name: index });
    const words = { name: (index) => ({ start: index, len: 1 }), name_words: ({ start, len }) => ({ name: len ? `.${start}` : "", whole: null }) };
    read_by({ section, ...words, ...reader });
    return own;
}

test("a symbol is in the section that the gABI says", () => {
    for (const [st_shndx, section, where] of [
        [0, 0, null], [1, 1, ".1"], [0xfeff, 0xfeff, ".65279"],
        // From SHN_LORESERVE on there is no section; with SHN_XINDEX the index is in another table.
        [0xff00, 0xff00, null], [0xfff1, 0xfff1, null], [0xfff2, 0xfff2, null], [0xffff, 70000, ".70000"],
    ]) {
        const symbol = { st_shndx, section, name: { start: 0, len: 0 } };
        const found = answered({ symbol: () => symbol }, "symbol_row").symbol_row(1, 0);
        assert.deepEqual([found.is_in_section, found.where], [where !== null, where ?? ""]);
    }
});

test("the entries of a dynamic array whose value is a string have it", () => {
    const row = (d_tag) => answered({ dynamic: () => ({ d_tag, d_un: 5 }), string: (table, at) => ({ start: at, len: 1 }) }, "dynamic_row").dynamic_row(1, 0);
    const with_strings = Array.from({ length: 38 }, (_, tag) => tag).filter((tag) => row(tag).name === ".5");
    // NEEDED, SONAME, RPATH and RUNPATH.
    assert.deepEqual(with_strings, [1, 14, 15, 29]);
});

test("a place has words for its field, and is as long as that", () => {
    const owned = (sh_type, start) => {
        const parts = [{ start: 0, len: start, owner: 0 }, { start, len: 96, owner: 4 }];
        const symbol = () => ({ st_shndx: 0, section: 0, name: { start: 7, len: 1 } });
        return { symbol, section: () => ({ sh_type, sh_name: 1 }), part: (k) => parts[k], parts: { count: 2 } };
    };
    for (const [sh_type, at, words, length] of [
        [2, 64 + 24 + 4, "st_info of symbol 1 .7 of section 1 .1", 1],
        [2, 64 + 24 + 6, "st_shndx of symbol 1 .7 of section 1 .1", 2],
        [2, 64 + 47, "st_size of symbol 1 .7 of section 1 .1", 1],
        [4, 64 + 8, "r_info of relocation 0 of section 1 .1", 8],
        [9, 64 + 16 + 8, "r_info of relocation 1 of section 1 .1", 8],
        [6, 64 + 16, "d_tag of entry 1 of section 1 .1", 8],
        [17, 64 + 4, "word 1 of section 1 .1", 4],
        [1, 64 + 3, "byte 3 of section 1 .1", 1],
        [1, 3, "this byte", 1],
    ]) {
        const found = answered(owned(sh_type, 64), "place_of").place_of(at);
        assert.deepEqual([found.words, found.length], [words, length]);
    }
});

// A worker whose notes have these names, and may take their time.
function searched(name_of) {
    const { QUESTIONS, search } = made_worker("QUESTIONS", "search");
    QUESTIONS.notes = (from) => [{ name: name_of(from), n_type: 5, desc: { start: 0, len: 0 } }];
    return (count, text) => search("notes", 0, count, text);
}

test("a search finds what is in any row and column", async () => {
    const search = searched((k) => (k % 12_345 === 7 ? "Sought" : `name ${k}`));
    assert.deepEqual([...await search(25_000, "sought")], [7, 12_352, 24_697]);
    assert.deepEqual([...await search(25_000, "SOUGHT")], [7, 12_352, 24_697]);
    assert.deepEqual([...await search(12_352, "sought")], [7]);
    assert.equal((await search(100, "0x5")).length, 100);
    assert.deepEqual([...await search(100, "no such name")], []);
});

test("a search ends where a later one begins", async () => {
    const search = searched((k) => {
        const end = performance.now() + 60;
        while (k === 0 && performance.now() < end);
        return `name ${k}`;
    });
    const first = search(10, "name");
    const second = search(3, "name");
    assert.equal(await first, null);
    assert.deepEqual([...await second], [0, 1, 2]);
});

test("a file that is opened has names of its own", async () => {
    const { Reader, open, section_name } = made_worker("Reader", "open", "section_name");
    // The last byte of each file is the name of its only section.
    Object.assign(Reader.prototype, { section: () => ({ sh_type: 1, sh_name: 1 }), name() { return { start: this.length - 1, len: 1 }; } });
    Object.assign(Reader.prototype, { verdict: () => ({ rule: 1, at: 0 }), header: () => null, file: () => null });
    for (const words of ["a", "xyb", "c"]) {
        const content = bytes(words);
        await open({ size: content.length, slice: (from, to) => ({ arrayBuffer: async () => content.slice(from, to).buffer }) });
        assert.equal(section_name(1).name, words.at(-1));
    }
});
