"use strict";
// The rules of tables in node, on tables that are made here by hand. Those of thousands of files are compared with `elfmap show`.
const assert = require("node:assert/strict");
const { test } = require("node:test");
const { made_worker } = require("./made.js");

const { Tables } = made_worker("Tables");
const SECTION_TABLE = 4096;

// The tables of a file of these sections, each of a type, its bytes, and other fields. What is between them is no zero.
function tables_of(...rows) {
    const bytes = new Uint8Array(SECTION_TABLE).fill(0xff);
    let end = 64;
    const headers = rows.map(([sh_type, content, more]) => {
        const header = { sh_type, sh_flags: 0, sh_offset: end, sh_size: content.length, sh_link: 0, sh_info: 0, sh_entsize: 0, ...more };
        bytes.set(content, end);
        end += content.length + 8;
        return header;
    });
    const none = { sh_type: 0, sh_flags: 0, sh_offset: 0, sh_size: 0, sh_link: 0, sh_info: 0, sh_entsize: 0 };
    return { headers, tables: new Tables(bytes, true, [none, ...headers], SECTION_TABLE) };
}

// As lists of this script: those of the page's have other prototypes.
const found = (tables) => JSON.parse(JSON.stringify(tables.findings())).map(({ section, rule, at }) => [section, rule, at]);
// Symbol 0 and a global one of the name at 1, in a section.
const symbols = (section) => [...new Uint8Array(24), 1, 0, 0, 0, 0x10, 0, section, 0, ...new Uint8Array(16)];
const relocation = [...new Uint8Array(8), 2, 0, 0, 0, 1, 0, 0, 0, ...new Uint8Array(8)];

test("tables that are sound have no findings", () => {
    const { tables } = tables_of([4, relocation, { sh_link: 2, sh_info: 3, sh_entsize: 24 }], [2, symbols(3), { sh_link: 3, sh_info: 1, sh_entsize: 24 }],
        [3, [0, 102, 0]]);
    assert.deepEqual(found(tables), []);
});

test("an empty string table is sound", () => {
    const { tables } = tables_of([2, new Uint8Array(24), { sh_link: 2, sh_info: 1, sh_entsize: 24 }], [3, []]);
    assert.deepEqual(found(tables), []);
});

test("of tables with one fault the symbol table has it", () => {
    const { headers, tables } = tables_of([4, relocation, { sh_link: 2, sh_info: 3, sh_entsize: 24 }],
        [2, symbols(99), { sh_link: 3, sh_info: 1, sh_entsize: 24 }], [3, [0, 102, 0]]);
    assert.deepEqual(found(tables), [[2, 51, headers[1].sh_offset + 24 + 6]]);
});

test("a name begins below the end of its string table", () => {
    const named = (name) => [...new Uint8Array(24), name, 0, 0, 0, 0x10, 0, 0, 0, ...new Uint8Array(16)];
    for (const [name, rules] of [[2, []], [3, [48]], [4, [48]]]) {
        const { headers, tables } = tables_of([2, named(name), { sh_link: 2, sh_info: 1, sh_entsize: 24 }], [3, [0, 102, 0]]);
        assert.deepEqual(found(tables), rules.map((rule) => [1, rule, headers[0].sh_offset + 24]));
    }
});

test("the first symbol that is not local is at most the number of symbols", () => {
    for (const [first, rules] of [[0, [46]], [1, []], [2, [46]]]) {
        const { headers, tables } = tables_of([2, new Uint8Array(24), { sh_link: 2, sh_info: first, sh_entsize: 24 }], [3, []]);
        assert.deepEqual(found(tables), rules.map((rule) => [1, rule, SECTION_TABLE + 64 + 44]));
    }
});

test("the members of a group come after it, each once", () => {
    const sought = (...members) => {
        const words = [1, ...members].flatMap((it) => [it, 0, 0, 0]);
        const { headers, tables } = tables_of([17, words, { sh_flags: 0x200, sh_link: 2, sh_info: 1, sh_entsize: 4 }],
            [2, symbols(0), { sh_flags: 0x200, sh_link: 3, sh_info: 1, sh_entsize: 24 }], [3, [0, 102, 0], { sh_flags: 0x200 }], [1, []]);
        return found(tables).map(([section, rule, at]) => [section, rule, (at - headers[0].sh_offset) / 4]);
    };
    assert.deepEqual(sought(2, 3), []);
    assert.deepEqual(sought(3, 2), []);
    // The group itself, one that is named twice, one without the flag of groups, and one that is not there.
    for (const wrong of [1, 2, 4, 5]) assert.deepEqual(sought(2, wrong), [[1, 58, 2]]);
});

test("each symbol is on the chain of its hash", () => {
    const words = (...own) => own.flatMap((it) => [it, 0, 0, 0]);
    const three = [...symbols(0), ...symbols(0).slice(24)];
    // One bucket, so each symbol belongs on its chain: the first symbol of the chain, and what follows each symbol.
    const sought = (first, ...next) => {
        const { headers, tables } = tables_of([5, words(1, 3, first, ...next), { sh_link: 2, sh_entsize: 4 }],
            [11, three, { sh_link: 3, sh_info: 1, sh_entsize: 24 }], [3, [0, 102, 0]]);
        return found(tables).map(([section, rule, at]) => [section, rule, (at - headers[0].sh_offset) / 4]);
    };
    assert.deepEqual(sought(1, 0, 2, 0), []);
    assert.deepEqual(sought(2, 0, 0, 1), []);
    // Word 3 is that of symbol 0, and each symbol is reported at its own.
    assert.deepEqual(sought(1, 0, 0, 0), [[1, 69, 5]]);
    assert.deepEqual(sought(2, 0, 0, 0), [[1, 69, 4]]);
    assert.deepEqual(sought(2, 0, 2, 0), [[1, 69, 4]]);
    assert.deepEqual(sought(0, 0, 2, 0), [[1, 69, 4]]);
});

// ---- Each rule, on a file with tables of each kind, of which one thing is changed

const words = (...own) => own.flatMap((it) => [it & 255, (it >> 8) & 255, 0, 0]);
const longs = (...own) => own.flatMap((it) => [...words(it), 0, 0, 0, 0]);
const LOCAL = [1, 0, 0, 0, 0, 0, 1, 0, ...new Uint8Array(16)];
const FIELDS = { sh_size: 32, sh_link: 40, sh_info: 44, sh_entsize: 56 };

function each_kind() {
    return {
        text: [1, longs(0, 0)],
        symbols: [2, [...new Uint8Array(24), ...LOCAL, ...symbols(1).slice(24)], { sh_link: 3, sh_info: 2, sh_entsize: 24 }],
        strings: [3, [0, 102, 0]],
        rela: [4, longs(4, 0, 0).with(12, 2), { sh_link: 2, sh_info: 1, sh_entsize: 24 }],
        rel: [9, longs(4, 0).with(12, 1), { sh_link: 2, sh_info: 1, sh_entsize: 16 }],
        group: [17, words(1, 7), { sh_link: 2, sh_info: 2, sh_entsize: 4 }],
        member: [1, longs(0), { sh_flags: 0x200 }],
        notes: [7, [...words(2, 4, 1), 97, 0, 0, 0, 1, 2, 3, 4]],
        dynamic: [6, longs(1, 1, 0, 0), { sh_link: 3, sh_entsize: 16 }],
        hash: [5, words(1, 3, 1, 0, 2, 0), { sh_link: 2, sh_entsize: 4 }],
        indexes: [18, words(0, 0, 0), { sh_link: 2, sh_entsize: 4 }],
    };
}

// The rules that are broken, each with where: the bytes of a content, or the fields of a section header.
function broken(change, spent = 0) {
    const rows = each_kind();
    change(rows);
    const { headers, tables } = tables_of(...Object.values(rows));
    tables.spent = spent;
    const names = Object.keys(rows);
    return found(tables).map(([, rule, at]) => {
        if (at < SECTION_TABLE) {
            const index = headers.findLastIndex((it) => it.sh_offset <= at);
            return `${rule} ${names[index]} ${at - headers[index].sh_offset}`;
        }
        const field = Object.keys(FIELDS).find((it) => FIELDS[it] === (at - SECTION_TABLE) % 64);
        return `${rule} ${names[Math.floor((at - SECTION_TABLE) / 64) - 1]} ${field}`;
    });
}

const content = (name, at, ...own) => (rows) => own.forEach((it, k) => { rows[name][1][at + k] = it; });
const contents = (name, own) => (rows) => { rows[name][1] = own; };
const field = (name, key, value) => (rows) => { rows[name][2][key] = value; };

// As docs/RULES.md says which rule is broken, and where.
const BROKEN = [
    ["41 strings 0", content("strings", 0, 1)],
    ["41 strings 2", content("strings", 2, 1)],
    ["42 symbols sh_entsize", field("symbols", "sh_entsize", 25)],
    ["42 rela sh_entsize", field("rela", "sh_entsize", 16)],
    ["42 rel sh_entsize", field("rel", "sh_entsize", 24)],
    ["42 group sh_entsize", field("group", "sh_entsize", 0)],
    ["42 dynamic sh_entsize", field("dynamic", "sh_entsize", 8)],
    ["42 hash sh_entsize", field("hash", "sh_entsize", 8)],
    ["43 symbols sh_size", content("symbols", 72, 0)],
    ["43 group sh_size", content("group", 8, 0)],
    ["44 symbols sh_link", field("symbols", "sh_link", 99)],
    ["44 symbols sh_link", field("symbols", "sh_link", 1)],
    ["44 rela sh_link", field("rela", "sh_link", 3)],
    ["44 dynamic sh_link", field("dynamic", "sh_link", 2)],
    ["45 symbols sh_size", (rows) => { contents("symbols", [])(rows); field("symbols", "sh_info", 1)(rows); }],
    ["45 symbols 5", content("symbols", 5, 1)],
    ["45 symbols 23", content("symbols", 23, 1)],
    ["46 symbols sh_info", field("symbols", "sh_info", 0)],
    ["46 symbols sh_info", field("symbols", "sh_info", 4)],
    ["47 symbols 28", content("symbols", 24 + 4, 0x20)],
    ["47 symbols 52", content("symbols", 48 + 4, 0x01)],
    ["48 symbols 24", content("symbols", 24, 3)],
    ["49 second sh_link", (rows) => { rows.second = rows.indexes; }],
    ["50 indexes sh_size", contents("indexes", words(0, 0))],
    ["50 indexes sh_entsize", field("indexes", "sh_entsize", 8)],
    ["51 symbols 30", content("symbols", 24 + 6, 12)],
    ["51 symbols 30", (rows) => { content("symbols", 24 + 6, 255, 255)(rows); delete rows.indexes; }],
    ["52 indexes 4", contents("indexes", words(0, 5, 0))],
    ["52 indexes 4", (rows) => { content("symbols", 24 + 6, 255, 255)(rows); contents("indexes", words(0, 1, 0))(rows); }],
    ["52 indexes 8", (rows) => { content("symbols", 48 + 6, 255, 255)(rows); contents("indexes", words(0, 0, 0xff00))(rows); }],
    ["53 rela sh_info", field("rela", "sh_info", 99)],
    ["54 rela 8", content("rela", 12, 3)],
    ["54 rel 8", content("rel", 12, 3)],
    ["55 group sh_size", contents("group", [])],
    ["56 group 0", content("group", 0, 2)],
    ["57 group sh_info", field("group", "sh_info", 0)],
    ["57 group sh_info", field("group", "sh_info", 3)],
    ["58 group 4", content("group", 4, 1)],
    ["59 notes 20", content("notes", 20, ...longs(0))],
    ["60 notes 0", content("notes", 0, 9)],
    ["60 notes 0", content("notes", 0, 0, 1)],
    ["61 notes 4", content("notes", 4, 5)],
    ["62 notes 13", content("notes", 13, 98)],
    ["63 dynamic sh_size", contents("dynamic", longs(1, 1))],
    ["64 dynamic 8", content("dynamic", 8, 3)],
    ["65 hash sh_size", contents("hash", words(1))],
    ["65 hash sh_size", contents("hash", words(1, 3, 1, 0, 2, 0, 0))],
    ["66 hash 0", contents("hash", words(0, 3, 0, 2, 0))],
    ["66 hash 4", contents("hash", words(1, 2, 1, 0, 0))],
    ["67 hash 8", content("hash", 8, 3)],
    ["67 hash 20", content("hash", 20, 3)],
    ["68 hash 8", content("hash", 16, 1)],
    ["69 hash 20", content("hash", 16, 0)],
];

test("each rule of tables is broken where it says so", () => {
    assert.deepEqual(broken(() => {}), []);
    for (const [where, change] of BROKEN) assert.deepEqual(broken(change), [where], `${change}`);
    const rules = new Set(BROKEN.map(([where]) => Number(where.slice(0, 2))));
    assert.deepEqual([...rules], Array.from({ length: 29 }, (_, k) => 41 + k));
});

test("what no rule forbids of tables is not broken", () => {
    for (const change of [
        content("symbols", 24, 0),
        // The entries after the first one of tag NULL have no strings, and other tags have none either.
        contents("dynamic", longs(0, 0, 1, 9)),
        contents("dynamic", longs(30, 9, 0, 0)),
        // A note without a name, and one without a descriptor; the name's zero is counted.
        contents("notes", [...words(0, 0, 1), ...words(4, 0, 1), 97, 98, 99, 0]),
        // Chains may share their end.
        (rows) => {
            contents("strings", [0, 102, 0, 103, 0])(rows);
            content("symbols", 48, 3)(rows);
            contents("hash", words(2, 3, 1, 2, 0, 0, 1))(rows);
        },
        content("group", 0, 0),
        (rows) => content("symbols", 24 + 6, 0xf1, 0xff)(rows),
        // The first of the reserved indices (SHN_LORESERVE).
        (rows) => content("symbols", 24 + 6, 0x00, 0xff)(rows),
    ]) assert.deepEqual(broken(change), [], `${change}`);
});

test("the chain that another one leads into may have no end", () => {
    const change = contents("hash", words(2, 3, 0, 2, 0, 1, 1));
    assert.deepEqual(broken(change), ["68 hash 12"]);
});

test("the symbol of a relocation is read in the order of the file", () => {
    const view = [0, 0, 0, 0, 0, 0, 0, 4, 0, 0, 0, 7, 0, 0, 0, 2, ...new Uint8Array(8)];
    const { tables } = tables_of([4, view]);
    const [, { sh_offset }] = tables.sections;
    assert.equal(tables.relocated(sh_offset), 0x02000000);
    tables.is_little = false;
    assert.equal(tables.relocated(sh_offset), 7);
});

test("a hash table has its symbols by the hash of their names", () => {
    // By the function of the gABI, chapter 5, in whole numbers.
    const hash = (name) => {
        let found = 0n;
        for (const it of Buffer.from(name)) {
            found = (found << 4n) + BigInt(it);
            const top = found & 0xf0000000n;
            found = (found ^ (top >> 24n)) & ~top & 0xffffffffn;
        }
        return found;
    };
    for (const name of ["f", "printf", "__libc_start_main", "n".repeat(64), "n".repeat(65), "\u00ff\u00fe".repeat(40)]) {
        const buckets = 17;
        const own = [0, ...Buffer.from(name), 0];
        const chosen = Number(hash(name) % BigInt(buckets));
        const change = (bucket) => (rows) => {
            contents("strings", own)(rows);
            // The first symbol leads to the second one, of the same name.
            contents("hash", words(buckets, 3, ...Array.from({ length: buckets }, (_, k) => (k === bucket ? 1 : 0)), 0, 2, 0))(rows);
        };
        assert.deepEqual(broken(change(chosen)), [], name);
        assert.deepEqual(broken(change((chosen + 1) % buckets)), [`69 hash ${4 * (2 + buckets + 1)}`], name);
    }
});

test("names that are too long together are not hashed", () => {
    const change = contents("strings", [0, 102, 103, 0]);
    assert.deepEqual(broken(change, 2 ** 30 - 4), []);
    assert.throws(() => broken(change, 2 ** 30 - 3), { message: "the names of its symbols are too long together" });
});
