"use strict";
// What the worker answers, in node, with a reader whose records are made here.
const assert = require("node:assert/strict");
const { test } = require("node:test");
const { made_worker, settled } = require("./made.js");

const plain = (it) => JSON.parse(JSON.stringify(it));
const one = (it) => ({ start: it, len: 1 });
const named = (name, whole = null) => ({ name, whole });

// The worker with a reader of these answers. A section is named by its sh_name, and any other thing by where its name is.
function answered(reader, ...more) {
    const worker = made_worker("read_by: (it) => { reader = it; }", "QUESTIONS", ...more);
    const names = { name: (index) => one(index), name_words: ({ start, len }, most) => named(len ? `n${start}${most ? `:${most}` : ""}` : "") };
    worker.read_by({ ...names, ...reader });
    return worker;
}

const asked = (reader, question, ...words) => plain(answered(reader).QUESTIONS[question](...words));
const sections = (...rows) => ({ section: (index) => rows[index] && { sh_name: index, sh_offset: 0, sh_size: 0, sh_link: 0, sh_info: 0, ...rows[index] } });

test("messages are answered by their number, and the module comes first", async () => {
    const { QUESTIONS, posted, tell, given } = answered({}, "tell: (data) => onmessage({ data })", "given: () => module");
    tell({ module: "code" });
    assert.deepEqual(plain(given()), { code: "code" });
    QUESTIONS.bytes = (from, count) => from + count;
    QUESTIONS.name = () => { throw new Error("no such name"); };
    QUESTIONS.parts = () => { throw "parts"; };
    for (const [id, ask] of [[1, "bytes"], [2, "name"], [3, "parts"]]) tell({ id, ask, words: [40, 2] });
    await settled();
    assert.deepEqual(plain(posted), [{ id: 1, value: 42 }, { id: 2, fault: "no such name" }, { id: 3, fault: "parts" }]);
});

test("rows end where there is no more", () => {
    const reader = { ...sections({ sh_type: 0 }, { sh_type: 1 }), segment: (k) => (k < 2 ? { p_type: k } : null), part: (k) => ({ owner: k }) };
    assert.deepEqual(asked(reader, "sections", 1, 5).map((it) => [it.index, it.name]), [[1, "n1"]]);
    assert.deepEqual(asked(reader, "segments", 0, 5), [{ index: 0, p_type: 0 }, { index: 1, p_type: 1 }]);
    assert.deepEqual(asked(reader, "parts", 3, 2), [{ index: 3, owner: 3 }, { index: 4, owner: 4 }]);
    for (const [kind, entry] of [["symbols", "symbol"], ["relocations", "relocation"], ["dynamic", "dynamic"], ["notes", "note"]]) {
        assert.deepEqual(asked({ [entry]: () => null }, kind, 0, 5, 1), []);
    }
});

test("a section of type NULL has no name, and one whose name is nowhere has none either", () => {
    const reader = sections({ sh_type: 0, sh_name: 5 }, { sh_type: 1 }, { sh_type: 1 });
    assert.deepEqual(asked({ ...reader, name: (index) => (index === 2 ? null : one(index)) }, "sections", 0, 3).map((it) => it.name), ["", "n1", ""]);
    const { section_words } = answered({ ...reader, name: () => null }, "section_words");
    assert.equal(section_words(1).words, "section 1 (no name)");
});

test("bytes are those of the file", () => {
    // More memory is after those of the file.
    const memory = Uint8Array.from({ length: 1024 }, (_, k) => k);
    const reader = { length: 64, bytes: (from, count) => new Uint8Array(memory.buffer, from, count) };
    const bytes = (from, count) => [...answered(reader).QUESTIONS.bytes(from, count)];
    assert.deepEqual(bytes(2, 3), [2, 3, 4]);
    assert.deepEqual(bytes(62, 512), [62, 63]);
    assert.deepEqual(bytes(64, 512), []);
    assert.deepEqual(bytes(99, 512), []);
});

test("the parts of a name come from the reader", () => {
    assert.deepEqual(asked({ part_of_name: (from, end) => ({ text: `${from} ${end}`, next: end }) }, "name", 7, 9), { text: "7 9", next: 9 });
});

test("a relocation has the name of its symbol, or of that one's section", () => {
    const relocation = { symbol: 1, relocation_type: 4, r_offset: 0, r_addend: 0 };
    const told = (symbol, more = {}) => {
        const reader = { ...sections({ sh_type: 0 }, { sh_type: 4, sh_link: 2, sh_info: 3 }), relocation: () => ({ ...relocation, ...more }),
            symbol: () => symbol, header: () => ({ e_machine: 62 }) };
        const [{ name, type_name, linked, target }] = asked(reader, "relocations", 0, 1, 1);
        return [name, type_name, linked, target];
    };
    assert.deepEqual(told({ name: one(9), st_shndx: 1, section: 1 }), ["n9", "PLT32", 2, 3]);
    // That of a section has no name of its own (STT_SECTION).
    assert.deepEqual(told({ name: { start: 0, len: 0 }, st_shndx: 1, section: 1 })[0], "n1");
    assert.deepEqual(told({ name: { start: 0, len: 0 }, st_shndx: 0, section: 0 })[0], "");
    assert.deepEqual(told(null), ["", "PLT32", 2, 3]);
    assert.equal(told(null, { relocation_type: 5 })[1], undefined);
});

test("a relocation of a machine without names has none", () => {
    const reader = { ...sections({ sh_type: 0 }, { sh_type: 4 }), relocation: () => ({ symbol: 0, relocation_type: 4 }), symbol: () => null, header: () => ({ e_machine: 1 }) };
    assert.equal("type_name" in asked(reader, "relocations", 0, 1, 1)[0], false);
});

test("a note has the extent of its name", () => {
    const note = { name: one(4), n_type: 1, desc: { start: 8, len: 4 } };
    assert.deepEqual(asked({ note: () => note }, "notes", 0, 1, 1), [{ index: 0, ...note, name: "n4", whole: null, owner: one(4) }]);
});

test("the tables to choose from are those of symbols, relocations, dynamic entries and notes", () => {
    // PROGBITS, SYMTAB, STRTAB, RELA, HASH, DYNAMIC, NOTE, REL, DYNSYM, GROUP; and a SYMTAB that holds no table.
    const types = [0, 1, 2, 3, 4, 5, 6, 7, 9, 11, 17, 2];
    const reader = { ...sections(...types.map((sh_type) => ({ sh_type }))), table: (index) => (index < 11 ? { entries: 10 * index } : null) };
    const { tables } = answered(reader, "tables");
    const right = [[2, "symbols"], [4, "relocations"], [6, "dynamic"], [7, "notes"], [8, "relocations"], [9, "symbols"]];
    assert.deepEqual(plain(tables(types.length)), right.map(([section, kind]) => ({ section, kind, entries: 10 * section, name: `n${section}:60` })));
});

test("the first sixteen owners of a byte are named, and the others counted", () => {
    const rows = Array.from({ length: 21 }, (_, k) => ({ sh_type: k ? 1 : 0, sh_offset: 50, sh_size: 50 }));
    // NOBITS has no bytes, one ends before the byte, one begins after it, and one begins at it.
    Object.assign(rows[1], { sh_type: 8 });
    Object.assign(rows[2], { sh_size: 10 });
    Object.assign(rows[3], { sh_offset: 61 });
    Object.assign(rows[4], { sh_offset: 60, sh_size: 1 });
    const { owners_of } = answered(sections(...rows), "owners_of");
    const file = (more) => ({ e_shoff: 1000, e_phoff: 64, sections: rows.length, segments: 0, ...more });
    const own = plain(owners_of(60, file()));
    assert.deepEqual(own.first.slice(0, 3), [
        { words: "the ELF header", start: 0, end: 64, whole: null },
        { words: "the content of section 4 n4", start: 60, end: 61, whole: null },
        { words: "the content of section 5 n5", start: 50, end: 100, whole: null },
    ]);
    assert.deepEqual([own.first.length, own.more], [16, 2]);
    const tables = plain(owners_of(70, { e_shoff: 70, e_phoff: 15, sections: 1, segments: 1 }));
    assert.deepEqual(tables.first.map((it) => [it.words, it.start, it.end]),
        [["the section header table", 70, 134], ["the program header table", 15, 71]]);
    assert.deepEqual(plain(owners_of(64, { e_shoff: 0, e_phoff: 0, sections: 0, segments: 0 })), { first: [], more: 0 });
});

test("a file begins with its verdict and its counts", () => {
    const file = { sections: 0, segments: 0, e_shoff: 0, e_phoff: 0 };
    const told = (fault) => {
        const reader = { length: 64, verdict: () => fault, header: () => ({ e_type: 1 }), file: () => file, account: () => 7, section: () => null };
        const { took, ...rest } = answered(reader, "validated").validated();
        assert.ok(took >= 0 && took < performance.now());
        return plain(rest);
    };
    const common = { length: 64, header: { e_type: 1 }, file, owners: { first: [], more: 0 }, tables: [] };
    assert.deepEqual(told(null), { ...common, fault: null, parts: 7 });
    assert.deepEqual(told({ rule: 8, at: 52 }), { ...common, fault: { rule: 8, at: 52 }, parts: 0 });
    const shared = told({ rule: 33, at: 3 });
    assert.deepEqual(shared.owners.first.map((it) => it.words), ["the ELF header"]);
});

test("a file that is opened later is the one that is read", async () => {
    const { open, posted } = made_worker("open", "only: Object.assign(Reader.prototype, { verdict: () => ({ rule: 1, at: 0 }), header: () => null, file: () => null })");
    const file = (size, before = () => {}) => ({ size, slice: (from, to) => ({ arrayBuffer: async () => { before(); return new Uint8Array(to - from).buffer; } }) });
    // The first waits for its module, and the second is opened meanwhile; the third comes while the second one is read.
    let third;
    const first = open(file(1));
    const second = open(file(2, () => { third = open(file(3)); }));
    for (const it of [first, second]) await assert.rejects(it, { message: "another file was opened" });
    assert.equal((await third).length, 3);
    assert.deepEqual(plain(posted), [{ progress: 1 }]);
    // Also of an empty file, which is read in no piece.
    const empty = open(file(0));
    assert.equal((await open(file(5))).length, 5);
    await assert.rejects(empty, { message: "another file was opened" });
    assert.equal((await open(file(0))).length, 0);
});

test("the part that holds a byte is found", () => {
    const parts = [0, 64, 72, 100].map((start, k) => ({ start, len: [64, 8, 28, 1][k], owner: k }));
    const { part_at } = answered({ parts: { count: parts.length }, part: (k) => parts[k] }, "part_at");
    const right = [[0, 0], [63, 0], [64, 1], [71, 1], [72, 2], [99, 2], [100, 3], [101, null]];
    assert.deepEqual(right.map(([at]) => part_at(at)?.index ?? null), right.map(([, index]) => index));
});

// A file of two section headers at 64, and between them and the end nothing: section 1 is a symbol table whose entries have another size.
function with_finding() {
    const content = new Uint8Array(256);
    const rows = [{ sh_type: 0, sh_flags: 0, sh_entsize: 0 }, { sh_type: 2, sh_flags: 0, sh_entsize: 25, sh_offset: 192, sh_size: 48 }];
    const parts = [{ start: 0, len: 64, owner: 0 }, { start: 64, len: 128, owner: 1 }, { start: 192, len: 48, owner: 4 }, { start: 240, len: 16, owner: null }];
    const file = { ei_data: 1, e_shoff: 64, sections: 2, segments: 0 };
    return { ...sections(...rows), bytes: () => content, file: () => file, parts: { count: 4 }, part: (k) => parts[k], symbol: () => null };
}

test("a finding has the words of its place", () => {
    const { QUESTIONS } = answered(with_finding());
    assert.equal(QUESTIONS.findings(), 1);
    const [found, ...more] = plain(QUESTIONS.finding_rows(0, 100));
    assert.equal(more.length, 0);
    assert.deepEqual([found.section, found.rule, found.at, found.table], [1, 42, 64 + 64 + 56, "section 1 n1"]);
    assert.deepEqual([found.words, found.length], ["sh_entsize, which is 25, of the header of section 1 n1", 8]);
    assert.deepEqual(found.wholes, [null, null]);
    assert.deepEqual(plain(QUESTIONS.finding_rows(1, 100)), []);
});

test("a place in no table has words too", () => {
    const { place_of } = answered(with_finding(), "place_of");
    for (const [at, words, length] of [
        [3, "this byte", 1], [250, "this byte", 1], [300, "this byte", 1],
        [64 + 40, "sh_link, which is 0, of the header of section 0 (no name)", 4],
        [64 + 64, "sh_name, which is 1, of the header of section 1 n1", 4],
        [192 + 24, "st_name of symbol 1 (no name) of section 1 n1", 4],
    ]) {
        const found = place_of(at);
        assert.deepEqual([found.words, found.length, found.whole], [words, length, null]);
    }
});

test("rows are in words", () => {
    const { row_words } = made_worker("row_words");
    const words = (kind, row) => [...row_words(kind, row)];
    const section = { name: ".text", sh_type: 1, sh_flags: 6, sh_offset: 64, sh_size: 16, sh_addr: 0x1000, sh_link: 2, sh_info: 3, sh_addralign: 16, sh_entsize: 24 };
    assert.deepEqual(words("sections", section), [".text", "PROGBITS", "AX", "0x40", "0x10", "0x1000", "2", "3", "0x10", "24"]);
    assert.deepEqual(words("sections", { ...section, name: "", sh_type: 99 }).slice(0, 2), ["(no name)", "0x63"]);
    const segment = { p_type: 1, p_flags: 5, p_offset: 64, p_vaddr: 0x400000, p_filesz: 8, p_memsz: 16, p_align: 4096 };
    assert.deepEqual(words("segments", segment), ["LOAD", "R-X", "0x40", "0x400000", "0x8", "0x10", "0x1000"]);
    const symbol = { name: "f", st_value: 16, st_size: 4, st_info: 0x12, st_shndx: 1, section: 1, is_in_section: true, where: ".text" };
    assert.deepEqual(words("symbols", symbol), ["f", "0x10", "4", "FUNC", "GLOBAL", "1 .text"]);
    assert.deepEqual(words("symbols", { ...symbol, name: "", st_info: 0xd9 }), ["(no name)", "0x10", "4", "0x9", "0xd", "1 .text"]);
    assert.deepEqual(words("symbols", { ...symbol, st_info: 0xaa }).slice(3, 5), ["GNU_IFUNC", "GNU_UNIQUE"]);
    const relocation = { r_offset: 4, relocation_type: 4, type_name: "PLT32", symbol: 7, name: "f", r_addend: -4, target: 1 };
    assert.deepEqual(words("relocations", relocation), ["0x4", "PLT32", "7 f", "-0x4", "section 1"]);
    assert.deepEqual(words("relocations", { ...relocation, type_name: undefined, name: "" }).slice(1, 3), ["4", "7"]);
    assert.deepEqual(words("dynamic", { d_tag: 1, d_un: 5, name: "libc.so.6" }), ["NEEDED", "0x5", "libc.so.6"]);
    assert.deepEqual(words("notes", { name: "GNU", n_type: 3, desc: { start: 0, len: 20 } }), ["GNU", "0x3", "20 bytes"]);
    assert.deepEqual(words("notes", { name: "", n_type: 3, desc: { start: 0, len: 1 } }), ["(no name)", "0x3", "1 byte"]);
});

test("a name that is cut is shown as a whole from each column", () => {
    const { COLUMNS } = made_worker("COLUMNS");
    const whole = { start: 1, len: 300 };
    for (const [kind, title, row] of [["sections", "name", { whole }], ["symbols", "name", { whole }], ["symbols", "section", { whole_where: whole }],
        ["relocations", "symbol", { whole }], ["dynamic", "string", { whole }], ["notes", "owner", { whole }]]) {
        const [, , , of] = COLUMNS[kind].find(([it]) => it === title);
        assert.equal(of(row), whole);
    }
});
