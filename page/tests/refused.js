"use strict";
// What the page shows of a file that breaks a rule, in node: its parts in lines, the fault, the values that break the rule, and sizes; and
// the members of archives. Records are made here.
const assert = require("node:assert/strict");
const { test } = require("node:test");
const { inside, made_page, made_worker, settled, words_in } = require("./made.js");

const plain = (it) => JSON.parse(JSON.stringify(it, (key, value) => (typeof value === "bigint" ? `${value}n` : value)));
const IDENT = [127, 69, 76, 70, 2, 1, 1];

// The worker with a file of these section headers from offset 1000 on, of so many bytes.
function worker_of(rows, length, more = {}) {
    const worker = made_worker("read_by: (it) => { reader = it; }", "QUESTIONS", "refused", "lanes_of", "header_count");
    const section = (index) => rows[index] && { sh_name: index, sh_type: 1, sh_flags: 2, sh_offset: 0, sh_size: 0, ...rows[index] };
    const file = { e_shoff: 1000, e_phoff: 0, sections: rows.length, segments: 0 };
    worker.read_by({ length, parts: { count: 0 }, section, file: () => file, header: () => ({ e_ident: IDENT }), table: () => null,
        name: (index) => ({ start: index, len: 1 }), name_words: ({ start }) => ({ name: `n${start}`, whole: null }), owner: () => null, ...more });
    return worker;
}

const row = ({ owner, start, len }) => [owner, start, len];

test("parts that overlap are in several lines, and gaps in the first one", () => {
    const rows = [{ sh_type: 0 }, { sh_offset: 64, sh_size: 36 }, { sh_offset: 90, sh_size: 20 }, { sh_offset: 95, sh_size: 2 }, { sh_offset: 120, sh_size: 10 }];
    const { refused } = worker_of(rows, 1320);
    const found = plain(refused({ rule: 33, at: 90 }));
    assert.deepEqual(found.counts, { sections: 5, segments: 0 });
    assert.deepEqual(found.lanes.map((it) => it.map(row)), [
        [[0, 0, 64], [4, 64, 36], [null, 110, 10], [7, 120, 10], [null, 130, 870], [1, 1000, 320]],
        [[5, 90, 20]],
        [[6, 95, 2]],
    ]);
    assert.deepEqual([found.hidden, found.past, found.more], [0, [], 0]);
});

test("of very many parts that overlap eight lines are drawn, and the others counted", () => {
    const rows = [{ sh_type: 0 }, ...Array.from({ length: 20 }, () => ({ sh_offset: 100, sh_size: 50 }))];
    const found = plain(worker_of(rows, 3000).refused({ rule: 33, at: 100 }));
    assert.deepEqual([found.lanes.length, found.hidden], [8, 12]);
});

test("what passes the end of the file is drawn to its end, and named", () => {
    const rows = [{ sh_type: 0 }, { sh_offset: 100, sh_size: 5000 }, { sh_offset: 2n ** 63n, sh_size: 8 }, { sh_type: 8, sh_offset: 9000, sh_size: 9 }];
    const found = plain(worker_of(rows, 1256).refused({ rule: 24, at: 1088 }));
    assert.deepEqual(found.lanes[0].map(row), [[0, 0, 64], [null, 64, 36], [4, 100, 1156]]);
    assert.deepEqual(found.lanes[1].map(row), [[1, 1000, 256]]);
    assert.deepEqual(found.past, ["section 1 n1 [0x64, 0x13ec)", "section 2 n2 [0x8000000000000000, 0x8000000000000000)"]);
});

test("headers that do not lie in the file are not shown", () => {
    const { header_count } = worker_of([], 1000);
    for (const [start, count, size, right] of [[0, 5, 64, 0], [936, 5, 64, 1], [937, 5, 64, 0], [100, 5, 56, 5], [2n ** 60n, 5, 64, 0], [64, 2n ** 60n, 56, 16]]) {
        assert.equal(header_count(start, count, size), right);
    }
});

test("what is no ELF-64 file has no parts", () => {
    for (const header of [null, { e_ident: [127, 69, 76, 70, 1] }, { e_ident: [0, 69, 76, 70, 2] }]) {
        assert.equal(worker_of([], 1000, { header: () => header }).refused({ rule: 3, at: 0 }), null);
    }
});

test("without section header 0 the program headers are those of the header", () => {
    const header = { e_ident: IDENT, e_phoff: 64, e_phnum: 3, e_shoff: 9000, e_shnum: 12 };
    const own = { e_phoff: 64, segments: 3, e_shoff: 9000, sections: 12 };
    const found = plain(worker_of([], 1000, { header: () => header, file: () => null, file_of_header: () => own }).refused({ rule: 12, at: 40 }));
    assert.deepEqual(found.counts, { sections: 0, segments: 3 });
    assert.deepEqual(found.lanes[0].map(row), [[0, 0, 64], [2, 64, 168], [null, 232, 768]]);
    assert.deepEqual(found.past, ["the section header table [0x2328, 0x2628)"]);
});

test("the sections that share a byte are those that the module names", () => {
    const owners = [4, 6, 9];
    const owner = (offset, first) => (offset === 90 ? owners.find((it) => it >= first) ?? null : null);
    const rows = Array.from({ length: 8 }, (_, k) => ({ sh_type: k ? 1 : 0 }));
    assert.deepEqual(plain(worker_of(rows, 2000, { owner }).refused({ rule: 33, at: 90 }).sharing), [1, 3, 6]);
    assert.deepEqual(plain(worker_of(rows, 2000, { owner }).refused({ rule: 24, at: 90 }).sharing), []);
});

test("no table has more entries than its file has room for", () => {
    const table = (index) => (index === 1 ? { entries: 2 ** 40 } : null);
    const found = worker_of([{ sh_type: 0 }, { sh_type: 2, sh_offset: 64, sh_size: 8 }], 1600, { table }).refused({ rule: 24, at: 0 });
    assert.deepEqual(plain(found.tables), [{ section: 1, kind: "symbols", entries: 100, name: "n1" }]);
});

test("sizes add up to the file, and each byte is counted once", () => {
    const rows = [{ sh_type: 0 }, { sh_offset: 64, sh_size: 36 }, { sh_offset: 90, sh_size: 20 }, { sh_type: 8, sh_size: 500 }, { sh_offset: 120, sh_size: 10, sh_flags: 0 }];
    const { QUESTIONS } = worker_of(rows, 1320);
    assert.equal(QUESTIONS.size_count(), 7);
    const found = plain(QUESTIONS.sizes(0, 100, 0));
    assert.deepEqual(found.map((it) => [it.name, it.bytes, it.memory, it.section]), [
        ["[gaps]", 880, 0, -1], ["[the section header table]", 320, 0, -1], ["[the ELF header]", 64, 0, -1], ["n1", 36, 36, 1], ["n2", 10, 20, 2],
        ["n4", 10, 0, 4], ["n3", 0, 500, 3],
    ]);
    assert.equal(found.reduce((sum, it) => sum + it.bytes, 0), 1320);
    assert.equal(found.reduce((sum, it) => sum + it.share, 0).toFixed(6), "1.000000");
});

test("of a sound file the sizes are those of its parts", () => {
    const parts = [[0, 0, 64], [4, 64, 8], [null, 72, 4], [5, 76, 8]].map(([owner, start, len]) => ({ owner, start, len }));
    const more = { parts: { count: 4 }, part: (k) => parts[k] };
    const { QUESTIONS } = worker_of([{ sh_type: 0 }, {}, {}], 84, more);
    QUESTIONS.size_count();
    assert.deepEqual(plain(QUESTIONS.sizes(0, 9, 0)).map((it) => it.bytes), [64, 8, 8, 4]);
});

// ---- What is drawn

const SECTION = { sh_type: 1, sh_flags: 6, sh_addr: 0, sh_offset: 64, sh_size: 8, sh_link: 0, sh_info: 0, sh_addralign: 1, sh_entsize: 0, whole: null };

// The page with a refused file of 200 bytes, of which two sections share a byte.
async function refused_page(fault, more = {}) {
    const page = made_page();
    page.script(`RULES[33] = ["SHARED_BYTE", "it has two owners", "give it one"]; RULES[24] = ["CONTENT_PAST_END", "it is past the end", "cut it"];
        Object.assign(LAYOUT, {
            elfmap_header: { size: 64, fields: [{ name: "e_ident", at: 0, width: 1, count: 16 }] },
            elfmap_section: { size: 64, fields: [{ name: "sh_name", at: 0, width: 4 }, { name: "sh_offset", at: 24, width: 8 }, { name: "sh_size", at: 32, width: 8 }] },
            elfmap_segment: { size: 56, fields: [{ name: "p_type", at: 0, width: 4 }, { name: "p_offset", at: 8, width: 8 }] },
        })`);
    const header = { e_ident: IDENT, e_type: 1, e_machine: 62, e_entry: 0 };
    const file = { sections: 3, segments: 0, e_shoff: 72, e_phoff: 0 };
    const lanes = [[{ owner: 0, start: 0, len: 64 }, { owner: 4, start: 64, len: 8 }, { owner: 1, start: 72, len: 128 }], [{ owner: 5, start: 70, len: 8 }]];
    const own = { file, counts: { sections: 2, segments: 0 }, lanes, hidden: 0, past: [], more: 0, tables: [], sharing: [1], ...more };
    const rows = [{ ...SECTION, sh_type: 0, name: "" }, { ...SECTION, name: ".text" }];
    const sections = (from, count) => Array.from({ length: count }, (_, k) => ({ index: from + k, ...SECTION, ...rows[from + k], name: rows[from + k]?.name ?? ".data" }));
    page.script(`open_file({ name: "a.o", size: 200 })`);
    await page.answer_all({
        open: () => ({ fault, took: 1, length: 200, header, file, parts: 0, owners: { first: [], more: 0 }, tables: [] }),
        refused: () => own, sections, segments: () => [], bytes: (from, count) => new Uint8Array(Math.min(count, 200 - from)),
    });
    return page;
}

test("a refused file has a map in lines, with the fault above it", async () => {
    const page = await refused_page({ rule: 33, at: 70 });
    assert.deepEqual(["map-section", "tables-section"].map((it) => page.by_id(it).hidden), [false, false]);
    assert.deepEqual(page.labels("map"), ["the ELF header: 64 bytes from 0x0", "section 1 .text: 8 bytes from 0x40", "the section header table: 128 bytes from 0x48"]);
    assert.deepEqual(page.labels("map-lane-1"), ["section 2 .data: 8 bytes from 0x46"]);
    assert.equal(page.by_id("map-lanes").children.length, 1);
    const [mark] = page.by_id("map-fault").children;
    assert.deepEqual([mark.textContent, mark.style.left], ["▼", "140px"]);
    assert.match(words_in(page.by_id("map-refused")), /^This file breaks a rule\. .* Parts that overlap are in several lines\. 1 section header of 3 does not lie in the file\.$/);
    assert.equal(page.script("state.is_drawn"), true);
    // Nothing of it is said of the next file.
    page.script(`open_file({ name: "b.o", size: 3 })`);
    assert.equal(page.by_id("map-refused").textContent, "");
    assert.equal(page.script("state.refused"), null);
});

test("the values that break the rule are marked", async () => {
    const cells = (page) => page.by_id("table").tBodies[0].children.map((it) => it.children.filter((td) => td.attributes.class === "broken").map(words_in));
    assert.deepEqual(cells(await refused_page({ rule: 33, at: 70 })), [[], ["0x40 !", "0x8 !"]]);
    // The field sh_offset of section 1.
    assert.deepEqual(cells(await refused_page({ rule: 24, at: 72 + 64 + 24 }, { sharing: [] })), [[], ["0x40 !"]]);
    assert.deepEqual(cells(await refused_page({ rule: 24, at: 72 + 31 }, { sharing: [] })), [["0x40 !"], []]);
    assert.deepEqual(cells(await refused_page({ rule: 24, at: 20 }, { sharing: [] })), [[], []]);
});

test("what passes the end is said, and the fault is drawn where it is in view", async () => {
    const page = await refused_page({ rule: 24, at: 70 }, { past: ["section 1 .text [0x40, 0x1000)"], more: 3, hidden: 2, lanes: [[{ owner: 0, start: 0, len: 200 }]] });
    const words = words_in(page.by_id("map-refused"));
    assert.match(words, /2 more parts overlap these\. Past the end of the file, 0xc8: section 1 \.text \[0x40, 0x1000\), and 3 more parts\./);
    page.script("zoom(100, 200)");
    await settled();
    assert.equal(page.by_id("map-fault").children.length, 0);
    page.script("zoom(60, 80)");
    await settled();
    assert.equal(page.by_id("map-fault").children[0].style.left, "200px");
});

test("a tab has the sizes", async () => {
    const page = await refused_page({ rule: 33, at: 70 });
    assert.deepEqual(page.by_id("tabs").children.map((it) => it.textContent), ["Sections (2)", "Sizes"]);
    page.by_id("tabs").children[1].onclick({});
    await page.answer_all({ size_count: () => 1, sizes: () => [{ index: 0, name: ".text", bytes: 1234, share: 0.125, memory: 0, section: 1, whole: null }] });
    assert.deepEqual(page.by_id("table").tBodies[0].children[0].children.map(words_in), ["0", ".text", "1,234", "12.5 %", "0"]);
    // They are counted once.
    page.by_id("tabs").children[0].onclick({});
    await settled();
    page.by_id("tabs").children[1].onclick({});
    await settled();
    assert.deepEqual(page.asked.map((it) => it.ask), ["sections", "sizes"]);
});

// ---- Archives

function archive_file(...members) {
    const parts = ["!<arch>\n"];
    for (const [name, content] of members) {
        parts.push(`${name.padEnd(16)}${"0".padEnd(12)}0     0     100644  ${String(content.length).padEnd(10)}\`\n`, content, content.length % 2 ? "\n" : "");
    }
    const bytes = Buffer.from(parts.join(""), "latin1");
    return file_of(bytes);
}

function file_of(bytes) {
    return { size: bytes.length, slice: (from, to) => ({ arrayBuffer: async () => new Uint8Array(bytes.subarray(from, to)).buffer }) };
}

async function members(...rows) {
    const { members_of } = made_worker("members_of");
    return plain(await members_of(archive_file(...rows)));
}

test("the members of an archive are those of GNU and BSD", async () => {
    const long = "a_name_of_more_than_sixteen_letters.o";
    const found = await members(["/", "1234"], ["//", `${long}/\nx/\n`], ["a.o/", "abc"], ["/0", "0123456789"], [`/${long.length + 2}`, "x"]);
    const header = 60;
    assert.deepEqual(found.map((it) => [it.name, it.size]), [["a.o", 3], [long, 10], ["x", 1]]);
    const names = 8 + header + 4 + header + long.length + 2 + 3;
    const first = names + (names % 2) + header;
    assert.deepEqual(found.map((it) => it.start), [first, first + 4 + header, first + 4 + header + 10 + header]);
    const of_bsd = await members(["#1/8", "abcdefghcontent"], ["#1/12", "__.SYMDEF\0\0\0xx"]);
    assert.deepEqual(of_bsd, [{ name: "abcdefgh", start: 8 + header + 8, size: 7 }]);
});

test("an archive ends where it can't be followed", async () => {
    const { members_of } = made_worker("members_of");
    assert.equal(await members_of(file_of(Buffer.from("\x7fELF no archive at all"))), null);
    assert.deepEqual(plain(await members_of(file_of(Buffer.from("!<arch>\n")))), []);
    const whole = archive_file(["a.o/", "abcd"], ["b.o/", "efgh"]);
    const bytes = Buffer.from(await whole.slice(0, whole.size).arrayBuffer());
    for (const [size, count] of [[bytes.length, 2], [bytes.length - 1, 1], [8 + 60 + 4 + 30, 1], [8 + 60 + 3, 0]]) {
        assert.equal((await members_of(file_of(bytes.subarray(0, size)))).length, count);
    }
    assert.deepEqual(plain(await members_of(file_of(Buffer.from("!<arch>\n" + "x".repeat(60))))), []);
});

test("names are escaped, and of an archive of many members each header is read", async () => {
    const rows = Array.from({ length: 3000 }, (_, k) => [`m${k}.o/`, "y".repeat(k % 90)]);
    const found = await members(["\x1b[1m\\.o/", "z"], ...rows);
    assert.equal(found.length, 3001);
    assert.equal(found[0].name, "\\x1b[1m\\\\.o");
    assert.deepEqual([found[3000].name, found[3000].size], ["m2999.o", 2999 % 90]);
});

test("a member of an archive is chosen", async () => {
    const page = made_page();
    page.script(`globalThis.cut = []; open_file({ name: "lib.a", size: 500, slice: (from, to) => { cut.push([from, to]); return { size: to - from }; } })`);
    const own = { members: [{ name: "a.o", start: 68, size: 10 }, { name: "b.o", start: 140, size: 20 }] };
    await page.answer({ archive: own.members });
    assert.deepEqual([page.by_id("members").hidden, inside(page.by_id("member")).map((it) => it.textContent)], [false, ["a.o", "b.o"]]);
    assert.deepEqual(plain(page.script("cut")), [[68, 78]]);
    await page.fail("no file");
    assert.match(page.by_id("said").textContent, /^lib\.a\(a\.o\) can't be read/);
    page.by_id("member").value = "1";
    page.by_id("member").onchange();
    await settled();
    assert.deepEqual(plain(page.script("cut")), [[68, 78], [140, 160]]);
    assert.equal(page.by_id("member").value, 1);
    await page.fail("no file");
    assert.match(page.by_id("said").textContent, /^lib\.a\(b\.o\) can't be read/);
    // Another file is no member.
    page.script(`open_file({ name: "c.o", size: 3 })`);
    await page.fail("no file");
    assert.deepEqual([page.by_id("members").hidden, page.by_id("member").children.length], [true, 0]);
});

test("an archive without members is said to have none", async () => {
    const page = made_page();
    page.script(`open_file({ name: "lib.a", size: 8 })`);
    await page.answer({ archive: [] });
    assert.equal(page.by_id("said").textContent, "lib.a is an archive without members that can be read.");
    assert.equal(page.by_id("main").hidden, true);
});
