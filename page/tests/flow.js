"use strict";
// What people do with the page, in node: they open files, press keys and buttons, and look at tables. The answers of the worker are made here.
const assert = require("node:assert/strict");
const { test } = require("node:test");
const { inside, made_page, settled, words_in } = require("./made.js");

const plain = (it) => JSON.parse(JSON.stringify(it));
const SECTION = { sh_type: 1, sh_flags: 6, sh_addr: 0, sh_offset: 64, sh_size: 8, sh_link: 0, sh_info: 0, sh_addralign: 1, sh_entsize: 0, whole: null };
const NULL = { ...SECTION, sh_type: 0, sh_flags: 0, sh_offset: 0, sh_size: 0, name: "" };

// The answers about a sound object of 200 bytes: its header, a section .text of 8 bytes, and two section headers.
function answers(more = {}) {
    const header = { e_ident: [127, 69, 76, 70, 2, 1, 1], e_type: 1, e_machine: 62, e_entry: 0 };
    const rows = [NULL, { ...SECTION, name: ".text" }];
    return {
        open: () => ({ fault: null, took: 1.25, length: 200, header, file: { sections: 2, segments: 0, e_shoff: 72, e_phoff: 0 }, parts: 3,
            owners: { first: [], more: 0 }, tables: [], ...more }),
        parts: () => [{ owner: 0, start: 0, len: 64 }, { owner: 4, start: 64, len: 8 }, { owner: 1, start: 72, len: 128 }],
        sections: (from, count) => rows.slice(from, from + count).map((it, k) => ({ index: from + k, ...it })),
        segments: () => [],
        bytes: (from, count) => new Uint8Array(Math.max(0, Math.min(count, 200 - from))),
        findings: () => 0,
        finding_rows: () => [],
        // What is no ELF-64 file has no map, also if a rule is broken.
        refused: () => null,
    };
}

// The page with this file.
async function opened(own = answers(), name = "a.o") {
    const page = made_page();
    page.script(`RULES[33] = ["SHARED_BYTE", "the file is refused because a byte lies in two", "give each byte one owner"];
        RULES[51] = ["NO_SUCH_SECTION", "the table is refused", "write the index of a section"];
        Object.assign(LAYOUT, {
            elfmap_header: { size: 64, fields: [{ name: "e_ident", at: 0, width: 1, count: 16 }, { name: "e_type", at: 16, width: 2 }, { name: "e_shstrndx", at: 62, width: 2 }] },
            elfmap_section: { size: 64, fields: [{ name: "sh_name", at: 0, width: 4 }, { name: "sh_offset", at: 24, width: 8 }, { name: "sh_size", at: 32, width: 8 }] },
            elfmap_segment: { size: 56, fields: [{ name: "p_type", at: 0, width: 4 }, { name: "p_offset", at: 8, width: 8 }] },
        })`);
    page.script(`open_file({ name: ${JSON.stringify(name)}, size: 200 })`);
    await page.answer_all(own);
    const key = (id, name) => {
        const event = { key: name, preventDefault() { this.is_kept = true; } };
        page.by_id(id).onkeydown(event);
        return event.is_kept ?? false;
    };
    // What a button leads to is drawn.
    const press = async (button, more = own) => {
        button.onclick({ preventDefault() {} });
        await page.answer_all(more);
    };
    return { ...page, key, press, own, text: (id) => words_in(page.by_id(id)) };
}

const buttons = (element) => inside(element).filter((it) => it.name === "button");

test("a sound file is drawn", async () => {
    const page = await opened();
    assert.equal(page.text("verdict"), "Sound: this file keeps all 33 rules of an ELF-64 file.");
    assert.equal(page.text("facts"), "relocatable, machine 62 (EM_X86_64), little-endian, entry 0x0, 2 sections, 0 segments");
    assert.equal(page.text("said"), "a.o: 200 bytes");
    assert.equal(page.document.title, "a.o - elfmap");
    assert.deepEqual([page.document.body.dataset.ready, page.document.body.dataset.took], ["1", "1.3"]);
    assert.deepEqual(["map-section", "tables-section", "main", "progress"].map((it) => page.by_id(it).hidden), [false, false, false, true]);
    assert.equal(page.text("findings-words"), "No table breaks a rule of tables.");
    assert.equal(page.by_id("findings-on").hidden, true);
    assert.deepEqual(page.by_id("tabs").children.map((it) => it.textContent), ["Sections (2)", "Sizes"]);
    assert.equal(page.text("table-words"), "Sections 1 to 2 of 2");
    assert.equal(page.text("bytes-words"), "Bytes 0x0 to 0xc7 of 200 bytes");
});

test("a big-endian file is called so", async () => {
    const own = answers();
    const { header } = own.open();
    const page = await opened({ ...own, open: () => ({ ...own.open(), header: { ...header, e_ident: [127, 69, 76, 70, 2, 2, 1] } }) });
    assert.match(page.text("facts"), /, big-endian, /);
});

test("the worker is given the module", () => {
    assert.deepEqual([...made_page().script("given.module")], [0, 0x61, 0x73, 0x6d]);
});

test("how much of a file is read is shown", async () => {
    const page = await opened();
    page.progress(0.25);
    assert.equal(page.by_id("progress").value, 0.25);
});

test("a file that can't be read is called so", async () => {
    for (const [name, front] of [["folder", "folder"], ["", "This"]]) {
        const page = made_page();
        page.script(`open_file({ name: "${name}", size: 0 })`);
        await page.fail("it is gone");
        assert.equal(words_in(page.by_id("said")), `${front} can't be read: it may be a folder, or have changed, or be gone. (it is gone)`);
        assert.deepEqual([page.by_id("main").hidden, page.by_id("progress").hidden], [true, true]);
    }
});

test("tables that can't be checked are called so", async () => {
    const page = made_page();
    page.script(`open_file({ name: "a.o", size: 200 })`);
    const own = answers();
    await settled();
    while (page.asked[0].ask !== "findings") await page.answer(own[page.asked[0].ask](...page.asked[0].words));
    await page.fail("the names of its symbols are too long together");
    assert.equal(words_in(page.by_id("findings-words")), "The tables are not checked: the names of its symbols are too long together.");
});

test("a window that changes while a file is read is drawn at its width", async () => {
    const own = answers();
    const page = made_page();
    page.script(`open_file({ name: "a.o", size: 200 })`);
    await settled();
    while (page.asked[0].ask !== "bytes") await page.answer(own[page.asked[0].ask](...page.asked[0].words));
    page.by_id("map").clientWidth = 800;
    await page.answer_all(own);
    assert.equal(page.by_id("map").children.at(-1).style.width, `${128 * 4}px`);
});

test("a refused file has its field and what to do, and no map", async () => {
    for (const [at, words, marked] of [
        [17, "That is the field e_type of the ELF header.", [16, 18]],
        [3, "That is the field e_ident of the ELF header.", [0, 16]],
        [72 + 64 + 30, "That is the field sh_offset of section header 1.", [160, 168]],
        [72, "That is the field sh_name of section header 0.", [72, 76]],
        [72 + 64, "That is the field sh_name of section header 1.", [136, 140]],
        [65, "That is the byte marked below.", [65, 66]],
        [200, "That is the end of the file.", [200, 200]],
    ]) {
        const page = await opened(answers({ fault: { rule: 33, at } }));
        const place = `0x${at.toString(16)}`;
        assert.equal(page.text("verdict"), `Refused by rule 33, SHARED_BYTE, at ${place}: the file is refused because a byte lies in two.`);
        assert.equal(page.text("advice"), `Go to ${place}. ${words} What to do: give each byte one owner.`);
        assert.deepEqual(plain(page.script("state.marked")), marked);
        assert.deepEqual(["map-section", "tables-section"].map((it) => page.by_id(it).hidden), [true, true]);
        assert.equal(page.by_id("verdict").className, "broken");
        assert.equal(page.script("state.is_drawn"), false);
    }
    // Two program headers end at 176.
    for (const [at, words] of [[120 + 10, "the field p_offset of program header 1"], [64, "the field p_type of program header 0"], [176, "the byte marked below"]]) {
        const page = await opened(answers({ fault: { rule: 33, at }, file: { sections: 0, segments: 2, e_shoff: 0, e_phoff: 64 } }));
        assert.match(page.text("advice"), new RegExp(` That is ${words}\\. `));
    }
});

test("what is no ELF file has no facts", async () => {
    const page = await opened(answers({ fault: { rule: 33, at: 0 }, header: null, file: null, length: 3 }));
    assert.equal(page.text("facts"), "");
    assert.match(page.text("advice"), /That is the byte marked below\./);
    const empty = await opened({ ...answers({ fault: { rule: 33, at: 0 }, header: null, file: null, length: 0 }), bytes: () => new Uint8Array(0) });
    assert.match(empty.text("advice"), /That is the end of the file\./);
    assert.equal(empty.text("bytes-words"), "This file is empty.");
});

test("the owners of a shared byte are named", async () => {
    const owner = (words, start, end) => ({ words, start, end, whole: null });
    const first = [owner("the ELF header", 0, 64), owner("the content of section 1 .a", 0, 80), owner("the content of section 2 .b", 32, 80)];
    const told = async (owners) => (await opened(answers({ fault: { rule: 33, at: 40 }, owners }))).text("advice");
    assert.match(await told({ first: first.slice(0, 2), more: 0 }), /the ELF header \[0x0, 0x40\) and the content of section 1 \.a \[0x0, 0x50\) share this byte\./);
    assert.match(await told({ first, more: 2 }), /\[0x0, 0x40\), the content .*, the content of section 2 \.b \[0x20, 0x50\) and 2 more sections share this byte\./);
    assert.doesNotMatch(await told({ first: first.slice(0, 1), more: 0 }), /share/);
});

test("a name that is cut is shown as a whole, in parts, by a button", async () => {
    const whole = { start: 100, len: 7 };
    const first = [{ words: "the content of section 1 .lon…", start: 0, end: 80, whole }, { words: "the content of section 2 .lon…", start: 0, end: 80, whole }];
    const page = await opened(answers({ fault: { rule: 33, at: 40 }, owners: { first, more: 0 } }));
    // Both sections have one name.
    const [button, ...others] = buttons(page.by_id("advice"));
    assert.equal(others.length, 0);
    assert.equal(button.textContent, "Show all 7 bytes of this name");
    const parts = { name: (at, end) => (assert.equal(end, 107), at === 100 ? { text: ".long", next: 105 } : { text: "er", next: 107 }) };
    await page.press(button, parts);
    assert.deepEqual([button.textContent, button.disabled], ["Show more: 2 bytes of this name are left", false]);
    assert.equal(words_in(button.next), ".long");
    await page.press(button, parts);
    assert.equal(words_in(button.next), ".longer");
    assert.equal(button.is_removed, true);
    assert.equal(page.document.activeElement, button.next);
});

test("findings are shown a hundred at a time", async () => {
    const row = (section) => ({ section, table: `section ${section} .symtab`, rule: 51, at: 64 + section, words: "st_shndx of symbol 1", length: 2, wholes: [null, null] });
    const rows = Array.from({ length: 150 }, (_, k) => row(k + 1));
    const page = await opened({ ...answers(), findings: () => 150, finding_rows: (from, count) => rows.slice(from, from + count) });
    assert.equal(page.text("findings-words"), "150 tables break a rule of tables.");
    assert.equal(page.by_id("findings").children.length, 100);
    assert.equal(words_in(page.by_id("findings").children[0]),
        "section 1 .symtab: rule 51, NO_SUCH_SECTION, at 0x41, st_shndx of symbol 1: the table is refused. What to do: write the index of a section.");
    assert.deepEqual([page.by_id("findings-on").hidden, page.by_id("findings-on").textContent], [false, "Show more of the 150 tables"]);
    // Pressed twice before there is an answer, it draws the rest once.
    page.by_id("findings-on").onclick();
    await page.press(page.by_id("findings-on"));
    assert.deepEqual([page.by_id("findings").children.length, page.by_id("findings-on").hidden], [150, true]);
    const one = await opened({ ...answers(), findings: () => 1, finding_rows: () => rows.slice(0, 1) });
    assert.equal(one.text("findings-words"), "1 table breaks a rule of tables.");
});

test("the arrows go along the map, and Escape leads out", async () => {
    const page = await opened();
    const [first, second, third] = page.by_id("map").children;
    assert.deepEqual([first, second, third].map((it) => it.tabIndex), [0, -1, -1]);
    // Before one of them has the focus no key is heard.
    assert.equal(page.key("map", "ArrowRight"), false);
    first.focus();
    for (const [name, to] of [["ArrowRight", second], ["End", third], ["ArrowLeft", second], ["Home", first]]) {
        assert.equal(page.key("map", name), true);
        assert.equal(page.document.activeElement, to);
        assert.deepEqual([first, second, third].map((it) => it.tabIndex), [first, second, third].map((it) => (it === to ? 0 : -1)));
    }
    // There is nothing before the first one, and no other key is kept from the page.
    for (const name of ["ArrowLeft", "Tab", "x"]) assert.equal(page.key("map", name), false);
    page.script("state.range = [60, 80]");
    page.key("map", "Escape");
    await page.answer_all(page.own);
    assert.deepEqual(plain(page.script("state.range")), [30, 110]);
});

test("a part is chosen, and looked into", async () => {
    const page = await opened();
    const [, text] = page.by_id("map").children;
    assert.equal(page.text("map-words"), "3 parts. Choose one to see its bytes.");
    assert.equal(page.by_id("zoom-in").disabled, true);
    text.onmouseenter();
    assert.equal(page.text("map-words"), "section 1 .text: 8 bytes from 0x40");
    // Nothing is chosen yet.
    await page.press(page.by_id("zoom-in"));
    assert.deepEqual(plain(page.script("state.range")), [0, 200]);
    await page.press(text);
    assert.deepEqual(page.by_id("map").children.map((it) => it.getAttribute("aria-current")), ["false", "true", "false"]);
    assert.deepEqual(page.by_id("map").children.map((it) => it.tabIndex), [-1, 0, -1]);
    assert.deepEqual(plain(page.script("state.marked")), [64, 72]);
    await page.press(page.by_id("zoom-in"));
    assert.deepEqual(plain(page.script("state.range")), [64, 72]);
    assert.deepEqual(page.labels("map"), ["section 1 .text: 8 bytes from 0x40"]);
    assert.equal(page.by_id("map").children[0].getAttribute("aria-current"), "true");
    await page.press(page.by_id("zoom-whole"));
    assert.deepEqual(plain(page.script("state.range")), [0, 200]);
    assert.deepEqual(page.by_id("map").children.map((it) => it.tabIndex), [-1, 0, -1]);
});

test("parts that are drawn as one are looked into", async () => {
    const own = { ...answers({ length: 4000, parts: 4 }), parts: () => [{ owner: 0, start: 0, len: 64 }, { owner: 4, start: 64, len: 1 },
        { owner: null, start: 65, len: 1 }, { owner: 1, start: 66, len: 3934 }] };
    const page = await opened(own);
    const [, several] = page.by_id("map").children;
    assert.equal(several.getAttribute("aria-label"), "2 parts: 2 bytes from 0x40");
    await page.press(several);
    assert.deepEqual(plain(page.script("state.range")), [64, 66]);
    assert.deepEqual(page.labels("map"), ["section 1 .text: 1 byte from 0x40", "a gap: no record says whose these bytes are: 1 byte from 0x41"]);
});

test("the name of a chosen part that is cut has a button", async () => {
    const own = answers();
    const cut = { ...own, sections: (from, count) => own.sections(from, count).map((it) => ({ ...it, name: ".te…", whole: { start: 1, len: 300 } })) };
    const page = await opened(cut);
    await page.press(page.by_id("map").children[1]);
    assert.equal(page.text("map-name").trim(), "Show all 300 bytes of the name of the chosen part");
});

test("a section without a name is called so", async () => {
    const own = answers();
    const page = await opened({ ...own, sections: (from, count) => own.sections(from, count).map((it) => ({ ...it, name: "" })) });
    assert.equal(page.labels("map")[1], "section 1 (no name): 8 bytes from 0x40");
    assert.equal(page.script("owner_words({ owner: 4 }, null)"), "section 1 …");
});

test("a map that has no width yet is drawn as if it had one", async () => {
    const page = await opened();
    page.script("state.width = 0");
    assert.equal(page.script("runs_of_parts().at(-1).right"), 300);
});

test("a gap after loaded bytes that are in sections is no part of these", () => {
    const page = made_page();
    const load = (p_offset, p_filesz) => ({ index: 0, p_type: 1, p_flags: 4, p_offset, p_filesz, p_vaddr: 0, p_memsz: p_filesz });
    const parts = [{ owner: 3, start: 0, len: 100 }, { owner: null, start: 100, len: 50 }];
    const found = page.script(`with_segments(${JSON.stringify(parts)}, loaded_ranges(${JSON.stringify([load(0, 20), load(40, 20), load(120, 10)])}))`);
    assert.deepEqual(plain(found).map((it) => [it.start, it.len, it.segment?.p_offset ?? null]),
        [[0, 100, null], [100, 20, null], [120, 10, 120], [130, 20, null]]);
});

// An object with two tables of symbols, of which the first has three symbols.
function with_symbols() {
    const tables = [{ section: 2, kind: "symbols", entries: 3, name: ".symtab" }, { section: 3, kind: "symbols", entries: 1, name: ".dynsym" }];
    const symbol = (index) => ({ index, name: `s${index}`, whole: null, st_value: 8 * index, st_size: 4, st_info: 0x12, st_shndx: 1, section: 1, is_in_section: true,
        where: ".text", whole_where: null });
    const rows = (from, count) => Array.from({ length: count }, (_, k) => symbol(from + k));
    return { ...answers({ tables }), symbols: rows };
}

test("each kind of table has a tab", async () => {
    const page = await opened(with_symbols());
    const [sections, symbols, sizes] = page.by_id("tabs").children;
    assert.deepEqual([sections, symbols, sizes].map((it) => it.textContent), ["Sections (2)", "Symbols (4)", "Sizes"]);
    await page.press(symbols);
    assert.equal(page.text("table-words"), "Symbols 1 to 3 of 3");
    assert.deepEqual([sections, symbols].map((it) => [it.getAttribute("aria-selected"), it.tabIndex]), [["false", -1], ["true", 0]]);
    assert.equal(page.by_id("panel").getAttribute("aria-labelledby"), "tab-symbols");
    assert.equal(page.by_id("which-label").hidden, false);
    page.by_id("which").value = "3";
    page.by_id("which").onchange();
    await page.answer_all(page.own);
    assert.equal(page.text("table-words"), "Symbols 1 to 1 of 1");
    // The arrows go along the tabs.
    symbols.focus();
    for (const [name, to] of [["ArrowLeft", sections], ["ArrowLeft", sections], ["ArrowRight", symbols], ["ArrowRight", sizes], ["ArrowRight", sizes], ["x", sizes]]) {
        page.key("tabs", name);
        assert.equal(page.document.activeElement, to);
    }
});

test("a table that is not there is not opened", async () => {
    const page = await opened();
    await page.script(`open_table("symbols", 9, 0)`);
    assert.equal(page.script("state.kind"), "sections");
});

test("of very many tables the first thousand have their names", async () => {
    const tables = Array.from({ length: 1001 }, (_, k) => ({ section: k + 1, kind: "notes", entries: 1, name: ".note" }));
    const page = await opened({ ...answers({ tables }), notes: () => [] });
    await page.press(page.by_id("tabs").children[1]);
    assert.deepEqual(page.by_id("which").children.slice(-2).map((it) => it.textContent), ["1000 .note", "1001"]);
});

test("rows lead to what they name", async () => {
    const page = await opened(with_symbols());
    const link = (element, words) => inside(element).find((it) => it.name === "a" && it.textContent === words);
    // The index and the offset of a section lead to its bytes.
    for (const words of ["1", "0x40"]) {
        page.script("state.marked = [0, 0]");
        await page.press(link(page.by_id("table"), words));
        assert.deepEqual(plain(page.script("state.marked")), [64, 72]);
    }
    assert.equal(page.by_id("bytes-title").seen, 2);
    // A NULL section has no bytes.
    assert.equal(link(page.by_id("table"), "0"), undefined);
    await page.press(page.by_id("tabs").children[1]);
    await page.press(link(page.by_id("table"), "1 .text"));
    assert.equal(page.text("table-words"), "Sections 1 to 2 of 2");
    const rows = page.by_id("table").tBodies[0].children;
    assert.deepEqual(rows.map((it) => it.getAttribute("class")), [null, "shown"]);
    assert.equal(rows[1].seen, 1);
    assert.equal(page.document.activeElement, page.by_id("tab-sections"));
});

test("rows are filtered while a text is typed", async () => {
    const page = await opened(with_symbols());
    const typed = async (text, more) => {
        page.by_id("filter").value = text;
        page.by_id("filter").oninput();
        await page.answer_all({ ...page.own, ...more });
        return page.text("table-words");
    };
    assert.equal(await typed("none", { search: () => [] }), "None of 2 holds this.");
    assert.equal(await typed("text", { search: () => [1] }), "Sections 1 to 1 of 1 found among 2");
    // The text has changed meanwhile, or another search has begun.
    assert.equal(await typed("tex", { search: () => { page.by_id("filter").value = "te"; return [0, 1]; } }), "Sections 1 to 1 of 1 found among 2");
    assert.equal(await typed("te", { search: () => null }), "Sections 1 to 1 of 1 found among 2");
    assert.equal(await typed("", {}), "Sections 1 to 2 of 2");
    // A link to a row, the first one too, shows all rows.
    for (const row of [0, 1]) {
        await typed("text", { search: () => [1] });
        page.script(`open_table("sections", 0, 0, ${row})`);
        await page.answer_all(page.own);
        assert.deepEqual([page.by_id("filter").value, page.text("table-words")], ["", "Sections 1 to 2 of 2"]);
    }
    // Another table is not filtered.
    await typed("text", { search: () => [1] });
    await page.press(page.by_id("tabs").children[1]);
    assert.deepEqual([page.by_id("filter").value, page.text("table-words")], ["", "Symbols 1 to 3 of 3"]);
});

test("an empty table is called so", async () => {
    const page = await opened(answers({ tables: [{ section: 2, kind: "symbols", entries: 0, name: ".symtab" }] }));
    page.script(`open_table("symbols", 2, 0)`);
    await page.answer_all({ ...page.own, symbols: () => [] });
    assert.equal(page.text("table-words"), "This table is empty.");
});

test("buttons go on and back by a hundred rows, and by 32 lines of bytes", async () => {
    const own = answers({ length: 100_000, file: { sections: 250, segments: 0, e_shoff: 72, e_phoff: 0 } });
    const page = await opened({ ...own, bytes: (from, count) => new Uint8Array(Math.min(count, 100_000 - from)) });
    const rows = async (id) => {
        await page.press(page.by_id(id));
        return page.text("table-words");
    };
    assert.equal(await rows("rows-on"), "Sections 101 to 200 of 250");
    assert.equal(await rows("rows-on"), "Sections 201 to 250 of 250");
    assert.equal(await rows("rows-back"), "Sections 101 to 200 of 250");
    page.script("state.row = 50");
    assert.equal(await rows("rows-back"), "Sections 1 to 100 of 250");
    const bytes = async (id) => {
        await page.press(page.by_id(id));
        return page.text("bytes-words");
    };
    const are_disabled = () => ["bytes-back", "bytes-on"].map((it) => page.by_id(it).disabled);
    assert.deepEqual(are_disabled(), [true, false]);
    assert.equal(await bytes("bytes-on"), "Bytes 0x200 to 0x3ff of 100,000 bytes");
    assert.equal(await bytes("bytes-on"), "Bytes 0x400 to 0x5ff of 100,000 bytes");
    assert.equal(await bytes("bytes-back"), "Bytes 0x200 to 0x3ff of 100,000 bytes");
    assert.deepEqual(are_disabled(), [false, false]);
    // A narrow window has half as many in a line.
    page.window.innerWidth = 600;
    assert.equal(await bytes("bytes-on"), "Bytes 0x300 to 0x3ff of 100,000 bytes");
    assert.equal(page.by_id("bytes").tBodies[0].children.length, 32);
    for (const [at, is_last] of [[99_999 - 256, false], [100_000 - 256, true], [99_999, true]]) {
        page.script(`show_bytes(${at}, [0, 0])`);
        await page.answer_all(page.own);
        assert.deepEqual(are_disabled(), [false, is_last]);
    }
});

test("an offset is typed, and Enter leads to it", async () => {
    const page = await opened();
    const go = async (text, how) => {
        page.by_id("offset").value = text;
        how();
        await page.answer_all(page.own);
        return [page.text("bytes-words"), plain(page.script("state.marked"))];
    };
    const enter = () => page.by_id("offset").onkeydown({ key: "Enter" });
    assert.deepEqual(await go("0x40", enter), ["Bytes 0x40 to 0xc7 of 200 bytes", [64, 65]]);
    assert.deepEqual(await go(" 72 ", () => page.by_id("go").onclick()), ["Bytes 0x48 to 0xc7 of 200 bytes", [72, 73]]);
    // Any other key is typed: a handler that answers false would keep it from the field.
    assert.equal(page.by_id("offset").onkeydown({ key: "7" }), undefined);
    assert.equal(page.text("bytes-words"), "Bytes 0x48 to 0xc7 of 200 bytes");
    assert.deepEqual(await go("0X4A", enter), ["Bytes 0x4a to 0xc7 of 200 bytes", [74, 75]]);
    assert.deepEqual(await go("0072", enter), ["Bytes 0x48 to 0xc7 of 200 bytes", [72, 73]]);
    for (const wrong of ["", " ", "-1", "+1", "x", "1.5", "0x", "1e2", "0b11", "0o17", "4 5", "40h", "9007199254740992", "Infinity"]) {
        assert.deepEqual(await go(wrong, enter), ["An offset is a number, as 64 or 0x40.", [72, 73]]);
    }
});

test("a file is chosen or dropped", async () => {
    const page = await opened();
    const file = { name: "b.o", size: 200 };
    page.by_id("chosen").files = [];
    page.by_id("chosen").onchange();
    assert.equal(page.asked.length, 0);
    page.by_id("chosen").files = [file];
    page.by_id("chosen").onchange();
    await page.answer_all(page.own);
    assert.equal(page.text("said"), "b.o: 200 bytes");
    let kept = 0;
    const dropped = async (files, ...items) => {
        page.document.ondragover({ preventDefault: () => kept++ });
        assert.equal(page.document.body.classes.has("over"), true);
        page.document.ondrop({ preventDefault: () => kept++, dataTransfer: { files, items } });
        assert.equal(page.document.body.classes.has("over"), false);
        await page.answer_all(page.own);
        await settled();
        return page.text("said");
    };
    page.by_id("chosen").value = "b.o";
    assert.equal(await dropped([{ name: "c.o", size: 200 }]), "c.o: 200 bytes");
    assert.equal(page.by_id("chosen").value, "");
    assert.equal(await dropped([file, file], { webkitGetAsEntry: () => ({ isDirectory: false }) }), "b.o: 200 bytes. Of several files the first one is shown.");
    assert.equal(await dropped([file], { webkitGetAsEntry: () => ({ isDirectory: true }) }), "This is a folder: drop one file of it.");
    assert.equal(await dropped([], { webkitGetAsEntry: () => null }), "This is no file: drop one from a folder.");
    assert.equal(kept, 8);
    page.document.ondragover({ preventDefault() {} });
    page.document.ondragleave();
    assert.equal(page.document.body.classes.has("over"), false);
});

test("a segment on the bar by address leads to its bytes", async () => {
    const own = answers();
    const program = { ...own.open(), header: { ...own.open().header, e_type: 2 }, file: { sections: 2, segments: 1, e_shoff: 72, e_phoff: 0 } };
    const load = { index: 0, p_type: 1, p_flags: 5, p_offset: 64, p_filesz: 8, p_vaddr: 0x400040, p_memsz: 16, p_align: 4096 };
    const page = await opened({ ...own, open: () => program, segments: () => [load] });
    await page.press(page.by_id("memory").children[0]);
    assert.deepEqual(plain(page.script("state.marked")), [64, 72]);
    page.by_id("memory").children[0].onfocus();
    assert.equal(page.text("memory-words"), "segment 0, R-X: 16 bytes from address 0x400040, 8 bytes of them from offset 0x40 of the file");
});

test("a file without sections begins with its segments", async () => {
    const own = answers();
    const program = { ...own.open(), header: { ...own.open().header, e_type: 2 }, parts: 0, file: { sections: 0, segments: 1, e_shoff: 0, e_phoff: 64 } };
    const load = { index: 0, p_type: 1, p_flags: 5, p_offset: 0, p_filesz: 200, p_vaddr: 0x400000, p_memsz: 200, p_align: 4096 };
    const page = await opened({ ...own, open: () => program, segments: () => [load] });
    assert.equal(page.text("table-words"), "Segments 1 to 1 of 1");
    const empty = await opened({ ...own, open: () => ({ ...program, file: { sections: 0, segments: 0, e_shoff: 0, e_phoff: 0 } }) });
    assert.equal(empty.by_id("tables-section").hidden, true);
});
