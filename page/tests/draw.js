"use strict";
// The page's script that draws, in node: what it makes of parts, segments and rows, and what it does with answers that come late.
const assert = require("node:assert/strict");
const fs = require("node:fs");
const { test } = require("node:test");
const { made_page, settled, text_of } = require("./made.js");

// A value of the page's script as one of this one's: they have different prototypes.
const plain = (it) => JSON.parse(JSON.stringify(it, (key, value) => (typeof value === "bigint" ? `${value}n` : value)));

// The page with a file of these parts, each of an owner and a length.
function opened(...rows) {
    const page = made_page();
    let length = 0;
    const parts = rows.map(([owner, len]) => ({ owner, start: (length += len) - len, len }));
    const open = { length, parts: parts.length, header: { e_type: 1 }, file: {} };
    page.script(`Object.assign(state, ${JSON.stringify({ open, parts, range: [0, length], width: 400 })})`);
    return page;
}

const section = (name, more = {}) => ({ sh_type: 1, sh_flags: 6, name, whole: null, ...more });

test("a part that is too short to be seen is drawn with others", () => {
    const page = opened([0, 1000], [3, 1], [4, 1], [5, 1], [6, 997]);
    const runs = plain(page.script("runs_of_parts()"));
    assert.deepEqual(runs.map((it) => it.count), [1, 3, 1]);
    assert.deepEqual(runs.map((it) => [it.start, it.end]), [[0, 1000], [1000, 1003], [1003, 2000]]);
    assert.equal(runs[0].left, 0);
    assert.equal(runs[0].right, 200);
    assert.equal(runs[2].right, 400);
});

test("a part has the colour of what it holds, and parts that are drawn as one have theirs", async () => {
    const page = opened([0, 1000], [3, 1], [4, 1], [null, 998]);
    page.script("zoom(0, 2000)");
    await settled();
    const colours = page.by_id("map").children.map((it) => it.style.background);
    assert.deepEqual(colours, ["header and tables", "several parts", "gap"].map((it) => page.script(`COLOURS["${it}"]`)));
    assert.equal(new Set(colours).size, 3);
});

test("each name that is cut has one button", () => {
    const page = opened([0, 64]);
    const buttons = page.script("buttons_of(null, { start: 4, len: 9 }, { start: 4, len: 9 }, { start: 5, len: 9 })");
    assert.deepEqual(Array.from(buttons, (it) => it.name ?? it), [" ", "button", " ", "button"]);
    assert.deepEqual(plain(page.script("buttons_of(null, null)")), []);
});

test("short parts that are apart are not drawn together", () => {
    const page = opened([3, 1], [4, 1000], [5, 1], [6, 1000]);
    assert.deepEqual(plain(page.script("runs_of_parts()")).map((it) => it.count), [1, 1, 1, 1]);
});

test("of a range those parts are drawn that are in it", () => {
    const page = opened([0, 100], [3, 100], [4, 100], [5, 100]);
    page.script("state.range = [100, 300]");
    const runs = plain(page.script("runs_of_parts()"));
    assert.deepEqual(runs.map((it) => [it.part.owner, it.left, it.right]), [[3, 0, 200], [4, 200, 400]]);
    page.script("state.range = [150, 250]");
    assert.deepEqual(plain(page.script("runs_of_parts()")).map((it) => [it.left, it.right]), [[0, 200], [200, 400]]);
});

test("the last view is drawn, also if an earlier one is answered later", async () => {
    const page = opened([0, 64], [3, 100], [4, 100], [5, 100]);
    page.script("zoom(0, 364)");
    await settled();
    // The earlier view waits for its first section of three; the later one needs none.
    assert.equal(page.asked.length, 1);
    page.script("zoom(0, 64)");
    await settled();
    assert.deepEqual(page.labels("map"), ["the ELF header: 64 bytes from 0x0"]);
    await page.answer([section(".text")]);
    // It asks for no more.
    assert.equal(page.asked.length, 0);
    assert.deepEqual(page.labels("map"), ["the ELF header: 64 bytes from 0x0"]);
    assert.deepEqual(page.by_id("map-scale").children.map((it) => it.textContent), ["0x0", "0x40"]);
});

test("two views that both wait are drawn in turn", async () => {
    const page = opened([0, 64], [3, 100], [4, 100], [5, 100]);
    page.script("zoom(0, 364)");
    page.script("zoom(164, 264)");
    await settled();
    const wanted = ["section 1 .b: 100 bytes from 0xa4"];
    // The worker answers what was asked first, but the page asks one after the other.
    while (page.asked.length) await page.answer([section(page.asked[0].words[0] === 1 ? ".b" : ".a")]);
    assert.deepEqual(page.labels("map"), wanted);
});

test("a section is asked for once", async () => {
    const page = opened([0, 64], [3, 100]);
    page.script("zoom(0, 164)");
    await settled();
    await page.answer([section(".text")]);
    page.script("zoom(64, 164)");
    await settled();
    assert.equal(page.asked.length, 0);
    assert.deepEqual(page.labels("map"), ["section 0 .text: 100 bytes from 0x40"]);
});

test("the bars are drawn anew while the worker is busy", async () => {
    const page = opened([0, 64], [3, 100]);
    page.script("state.is_drawn = true; state.range = [0, 164]");
    page.by_id("map").clientWidth = 800;
    page.script("redraw_bars()");
    await settled();
    const widths = () => page.by_id("map").children.map((it) => Math.round(parseFloat(it.style.width)));
    assert.deepEqual(widths(), [312, 488]);
    assert.deepEqual(page.labels("map"), ["the ELF header: 64 bytes from 0x0", "section 0 …: 100 bytes from 0x40"]);
    await page.answer([section(".text")]);
    assert.deepEqual(widths(), [312, 488]);
    assert.equal(page.labels("map")[1], "section 0 .text: 100 bytes from 0x40");
});

test("a window that is resized before the tables are checked does not wait for them", async () => {
    const page = opened([0, 64]);
    page.script(`Object.assign(state.open, { fault: null, took: 1, header: { e_type: 1, e_machine: 62, e_entry: 0, e_ident: [0, 0, 0, 0, 0, 1] },
        file: { sections: 0, segments: 0 }, parts: 1, tables: [] })`);
    page.script("show_file()");
    await settled();
    while (page.asked.length && page.asked[0].ask !== "findings") {
        const { ask } = page.asked[0];
        await page.answer(ask === "bytes" ? new Uint8Array(64) : ask === "parts" ? [{ owner: 0, start: 0, len: 64 }] : []);
    }
    assert.equal(page.asked[0].ask, "findings");
    assert.equal(page.script("state.is_drawn"), true);
    page.by_id("map").clientWidth = 800;
    page.window.onresize();
    await new Promise((go_on) => setTimeout(go_on, 300));
    assert.equal(page.by_id("map").children[0].style.width, "800px");
});

test("the words of the map count what can be chosen", async () => {
    const page = opened([0, 64], [null, 100], [3, 10]);
    page.script("state.loads = [{ index: 0, p_type: 1, p_flags: 5, p_offset: 80, p_filesz: 20, p_vaddr: 0, p_memsz: 20 }]");
    page.script("state.parts = with_segments(state.parts, loaded_ranges(state.loads))");
    page.script("zoom(0, 174)");
    await settled();
    await page.answer([section(".text")]);
    assert.equal(page.labels("map").length, 5);
    assert.equal(page.by_id("map-words").textContent, "5 parts. Choose one to see its bytes.");
});

test("a gap is cut where segments begin and end", () => {
    const page = opened([0, 64], [null, 100], [3, 10]);
    const load = (index, p_offset, p_filesz) => ({ index, p_type: 1, p_flags: 4, p_offset, p_filesz, p_vaddr: 0, p_memsz: p_filesz });
    const pieces = (loads) => plain(page.script(`with_segments(state.parts, loaded_ranges(${JSON.stringify(loads)}))`))
        .slice(1, -1).map((it) => [it.start, it.len, it.segment?.index ?? null]);
    assert.deepEqual(pieces([]), [[64, 100, null]]);
    assert.deepEqual(pieces([load(0, 0, 80)]), [[64, 16, 0], [80, 84, null]]);
    assert.deepEqual(pieces([load(0, 80, 10), load(1, 150, 100)]), [[64, 16, null], [80, 10, 0], [90, 60, null], [150, 14, 1]]);
    // Of a byte that two segments load the first one has it.
    assert.deepEqual(pieces([load(0, 80, 20), load(1, 90, 20)]), [[64, 16, null], [80, 10, 0], [90, 10, 0], [100, 10, 1], [110, 54, null]]);
    // One that takes memory alone cuts nothing.
    assert.deepEqual(pieces([load(0, 100, 0)]), [[64, 100, null]]);
    assert.deepEqual(pieces([load(0, 80, 40), load(1, 100, 0)]), [[64, 16, null], [80, 40, 0], [120, 44, null]]);
});

test("the parts have the colours of what they hold", () => {
    const page = made_page();
    const kind = (sh_type, sh_flags) => page.script(`kind_of_part(3, { sh_type: ${sh_type}, sh_flags: ${sh_flags} })`);
    assert.deepEqual([2, 3, 5, 11, 18].map((it) => kind(it, 2)), Array(5).fill("symbols and strings"));
    assert.deepEqual([4, 9].map((it) => kind(it, 2)), Array(2).fill("relocations"));
    assert.deepEqual([6, 7, 14, 15, 16, 17].map((it) => kind(it, 3)), Array(6).fill("other"));
    assert.deepEqual([7, 6, 5, 4].map((it) => kind(1, it)), Array(4).fill("code"));
    assert.deepEqual([3, 1, 2, 0].map((it) => kind(1, it)), ["data", "data", "constants", "other"]);
    assert.equal(page.script("kind_of_part(null)"), "gap");
    assert.deepEqual([0, 1, 2].map((it) => page.script(`kind_of_part(${it})`)), Array(3).fill("header and tables"));
    assert.deepEqual([5, 7, 6, 4, 0].map((it) => page.script(`kind_of_segment({ p_flags: ${it} })`)), ["code", "code", "data", "constants", "constants"]);
    assert.equal(page.script("kind_of_part(3, { sh_type: 1, sh_flags: 2n ** 63n + 4n })"), "code");
});

test("to zoom out is to see four times as much, and no more than there is", async () => {
    const page = opened([0, 1000]);
    const range = async (from, to) => {
        page.script(`state.range = [${from}, ${to}]; zoom_out()`);
        await settled();
        return plain(page.script("state.range"));
    };
    assert.deepEqual(await range(400, 500), [250, 650]);
    assert.deepEqual(await range(0, 100), [0, 400]);
    assert.deepEqual(await range(900, 1000), [750, 1000]);
    assert.deepEqual(await range(0, 1000), [0, 1000]);
    assert.deepEqual(await range(500, 501), [498, 502]);
    assert.equal(page.by_id("zoom-out").disabled, false);
    await range(0, 900);
    assert.equal(page.by_id("zoom-out").disabled, true);
    assert.equal(page.by_id("zoom-whole").disabled, true);
});

test("an empty part can be looked into", async () => {
    const page = opened([0, 1000]);
    page.script("zoom(10, 10)");
    await settled();
    assert.deepEqual(plain(page.script("state.range")), [10, 11]);
});

test("the bar by address has each segment where it is in memory", () => {
    const page = opened([0, 64]);
    const load = (index, p_vaddr, p_memsz) => ({ index, p_type: 1, p_flags: 5, p_offset: 0, p_filesz: 16, p_vaddr, p_memsz });
    const shown = (...loads) => {
        page.script(`state.loads = ${JSON.stringify(loads).replace(/"(\d+n)"/g, "$1")}; show_memory()`);
        const bars = page.by_id("memory").children.map((it) => [parseFloat(it.style.left), parseFloat(it.style.width)]);
        return [bars, page.by_id("memory-scale").children.map((it) => it.textContent), page.by_id("memory-section").hidden];
    };
    assert.deepEqual(shown(load(0, 0x400000, 100), load(1, 0x400100, 144)), [[[0, 100], [256, 144]], ["0x400000", "0x400190"], false]);
    // Two bytes to a pixel.
    assert.deepEqual(shown(load(0, 0x400000, 200), load(1, 0x400190, 400))[0], [[0, 100], [200, 200]]);
    // Above 4 GiB, and where no number is whole any more.
    assert.deepEqual(shown(load(0, 2 ** 40, 200), load(1, 2 ** 40 + 200, 200))[0], [[0, 200], [200, 200]]);
    assert.deepEqual(shown(load(0, "18446744069414584320n", "65536n"))[1], ["0xffffffff00000000", "0xffffffff00010000"]);
    assert.equal(page.labels("memory")[0].includes("from address 0xffffffff00000000"), true);
    page.script("state.loads = []; show_memory()");
    assert.equal(page.by_id("memory-section").hidden, true);
});

test("segments of programs, and no others, are drawn by address", async () => {
    const page = opened([0, 64]);
    const rows = [{ p_type: 1, p_memsz: 10 }, { p_type: 1, p_memsz: 0 }, { p_type: 2, p_memsz: 10 }];
    for (const e_type of [2, 3, 4]) {
        page.script(`state.open.header.e_type = ${e_type}; state.open.file.segments = 3; loadable_segments().then((it) => { state.loads = it; })`);
        await settled();
        assert.deepEqual(plain(page.asked[0].words), [0, 3]);
        await page.answer(rows);
        assert.deepEqual(plain(page.script("state.loads")), rows.slice(0, 1));
    }
    page.script("state.open.header.e_type = 1; loadable_segments().then((it) => { state.loads = it; })");
    await settled();
    assert.deepEqual([page.asked.length, plain(page.script("state.loads"))], [0, []]);
});

test("the rows of the last table that was asked for are drawn", async () => {
    const page = opened([0, 64]);
    page.script(`Object.assign(state.open, { file: { sections: 2, segments: 3 }, tables: [] })`);
    page.script(`open_table("sections", 0, 0); open_table("segments", 0, 0)`);
    await settled();
    const [first, second] = page.asked.splice(0);
    const segment = { p_type: 1, p_flags: 5, p_offset: 0, p_filesz: 1, p_vaddr: 0, p_memsz: 1, p_align: 1 };
    page.asked.push(second);
    await page.answer([0, 1, 2].map((index) => ({ index, ...segment })));
    page.asked.push(first);
    await page.answer([0, 1].map((index) => ({ index, ...section(".text"), sh_offset: 0, sh_size: 1, sh_addr: 0, sh_link: 0, sh_info: 0, sh_addralign: 1, sh_entsize: 0 })));
    assert.equal(page.by_id("table").tBodies[0].children.length, 3);
    assert.equal(page.by_id("table-words").textContent, "Segments 1 to 3 of 3");
});

test("the bytes of the last place that was asked for are drawn", async () => {
    const page = opened([0, 5000]);
    page.script("show_bytes(0, [0, 0]); show_bytes(4096, [4096, 4097])");
    await settled();
    const [first, second] = page.asked.splice(0);
    page.asked.push(second);
    await page.answer(new Uint8Array(512).fill(2));
    page.asked.push(first);
    await page.answer(new Uint8Array(512).fill(1));
    assert.equal(page.by_id("bytes-words").textContent, "Bytes 0x1000 to 0x11ff of 5,000 bytes");
    const [, digits] = page.by_id("bytes").tBodies[0].children[0].children;
    assert.equal(digits.children.at(-1).slice(0, 5), "02 02");
});

test("rows come a hundred at a time", async () => {
    const page = opened([0, 64]);
    page.script(`Object.assign(state.open, { file: { sections: 20250, segments: 0 }, tables: [] }); open_table("sections", 0, 20200)`);
    await settled();
    assert.deepEqual(plain(page.asked[0].words), [20200, 50, 0]);
    await page.answer([]);
    assert.equal(page.by_id("table-words").textContent, "Sections 20,201 to 20,250 of 20,250");
    assert.deepEqual([page.by_id("rows-back").disabled, page.by_id("rows-on").disabled], [false, true]);
    page.script(`open_table("sections", 0, 0)`);
    await settled();
    assert.deepEqual(plain(page.asked[0].words), [0, 100, 0]);
    await page.answer([]);
    assert.deepEqual([page.by_id("rows-back").disabled, page.by_id("rows-on").disabled], [true, false]);
});

test("what comes of an earlier file is not drawn", async () => {
    const page = opened([0, 64]);
    page.script("show_bytes(0, [0, 0])");
    await settled();
    page.script("state.turn++");
    await page.answer(new Uint8Array(64));
    assert.equal(page.by_id("bytes-words").textContent, "");
});

test("a file that comes forgets what was said of the one before", () => {
    const page = opened([0, 64]);
    for (const field of ["offset", "filter"]) page.by_id(field).value = "0x40";
    for (const words of ["memory-words", "bytes-words", "table-words"]) page.by_id(words).textContent = "of the file before";
    page.script(`state.is_drawn = true; state.sections.set(3, {}); forget_file()`);
    assert.deepEqual(plain(page.script("[state.is_drawn, state.parts, state.part, state.sections.size, state.open]")), [false, [], null, 0, null]);
    assert.equal(page.by_id("main").hidden, true);
    assert.deepEqual(["offset", "filter"].map((it) => page.by_id(it).value), ["", ""]);
    assert.deepEqual(["memory-words", "bytes-words", "table-words"].map((it) => page.by_id(it).textContent), ["", "", ""]);
});

test("the tables to choose from are those of the file", async () => {
    const page = opened([0, 64]);
    const choice = async (turn, ...tables) => {
        const rows = tables.map(([section, name]) => ({ section, name, kind: "symbols", entries: 1 }));
        page.script(`state.turn = ${turn}; Object.assign(state.open, { file: {}, tables: ${JSON.stringify(rows)} }); show_choice("symbols", ${tables[0][0]})`);
        return page.by_id("which").children.map((it) => it.textContent);
    };
    assert.deepEqual(await choice(1, [2, ".symtab"], [5, ".dynsym"]), ["2 .symtab", "5 .dynsym"]);
    assert.deepEqual(await choice(2, [9, ".symtab"]), ["9 .symtab"]);
});

test("what a filter finds is shown from its first row on", async () => {
    const page = opened([0, 64]);
    page.script(`Object.assign(state.open, { file: { sections: 500, segments: 0 }, tables: [] }); open_table("sections", 0, 300)`);
    await settled();
    await page.answer([]);
    page.by_id("filter").value = "text";
    page.script("filter_rows()");
    assert.deepEqual(plain(page.asked[0].words), ["sections", 0, 500, "text"]);
    await page.answer([7, 301]);
    assert.deepEqual(page.asked.map((it) => plain(it.words)), [[7, 1, 0], [301, 1, 0]]);
    await page.answer([]);
    await page.answer([]);
    assert.equal(page.by_id("table-words").textContent, "Sections 1 to 2 of 2 found among 500");
});

test("a link to a row shows the hundred rows that it is among", async () => {
    for (const [row, first, count] of [[0, 0, 100], [99, 0, 100], [100, 100, 100], [250, 200, 60]]) {
        const page = opened([0, 64]);
        page.script(`Object.assign(state.open, { file: { sections: 260, segments: 0 }, tables: [] })`);
        page.script(`link_to({ kind: "sections", row: ${row} }, "")`).onclick({ preventDefault() {} });
        assert.deepEqual(plain(page.asked[0].words), [first, count, 0]);
        assert.equal(page.script("state.shown"), row);
    }
});

test("a cell leads to what it names", () => {
    const page = made_page();
    const leads = (kind, title, row) => plain(page.script(`COLUMNS.${kind}.find(([it]) => it === "${title}")[2](${JSON.stringify(row)}) || null`));
    for (const [kind, title, row, to] of [
        ["sections", "offset", { sh_type: 1, sh_offset: 64, sh_size: 8 }, { bytes: 64, length: 8 }],
        ["sections", "offset", { sh_type: 1, sh_offset: 64, sh_size: 0 }, null],
        ["sections", "offset", { sh_type: 8, sh_offset: 64, sh_size: 8 }, null],
        ["sections", "link", { sh_link: 3 }, { kind: "sections", row: 3 }],
        ["sections", "link", { sh_link: 0 }, null],
        // Of relocations sh_info is the index of a section, and of symbols it is a number.
        ["sections", "info", { sh_type: 4, sh_info: 2 }, { kind: "sections", row: 2 }],
        ["sections", "info", { sh_type: 9, sh_info: 2 }, { kind: "sections", row: 2 }],
        ["sections", "info", { sh_type: 9, sh_info: 0 }, null],
        ["sections", "info", { sh_type: 2, sh_info: 2 }, null],
        ["segments", "offset", { p_offset: 64, p_filesz: 16, p_memsz: 4096 }, { bytes: 64, length: 16 }],
        ["symbols", "section", { is_in_section: true, section: 70000 }, { kind: "sections", row: 70000 }],
        ["symbols", "section", { is_in_section: false, section: 0 }, null],
        ["relocations", "symbol", { linked: 5, symbol: 7 }, { kind: "symbols", table: 5, row: 7 }],
        ["relocations", "applies to", { target: 2 }, { kind: "sections", row: 2 }],
        ["relocations", "applies to", { target: 0 }, null],
        ["notes", "descriptor", { desc: { start: 80, len: 4 } }, { bytes: 80, length: 4 }],
    ]) assert.deepEqual(leads(kind, title, row), to, `${kind} ${title} ${JSON.stringify(row)}`);
});

test("an offset beyond what a number holds leads to the end", async () => {
    const page = opened([0, 100]);
    page.script("show_range(2n ** 63n, 0)");
    await settled();
    assert.equal(page.asked[0].words[0], 99);
    page.by_id("offset").value = "words";
    page.script("go_to_offset()");
    assert.equal(page.by_id("bytes-words").textContent, "An offset is a number, as 64 or 0x40.");
});

test("the bytes that are meant are marked", () => {
    const page = opened([0, 100]);
    page.script("state.marked = [2, 4]");
    const [, digits, letters] = page.script("bytes_line(0, new Uint8Array([1, 2, 65, 66, 5]))").children;
    const words = (cell) => cell.children.map((it) => (it.name === "mark" ? `[${it.textContent}]` : it));
    assert.deepEqual(words(digits), ["01 02 ", "[41 42 ]", "05"]);
    assert.deepEqual(words(letters), ["..", "[AB]", "."]);
    // A space is no letter that can be seen.
    const [, , others] = page.script("bytes_line(8, new Uint8Array([31, 32, 33, 126, 127, 128, 255]))").children;
    assert.deepEqual(words(others), ["..!~..."]);
});

test("numbers have their names, and flags their letters", () => {
    const page = made_page();
    assert.equal(page.script("section_flags(0x7)"), "WAX");
    assert.deepEqual([1, 2, 4, 16, 32, 64, 128, 256, 512, 1024, 2048].map((it) => page.script(`section_flags(${it})`)).join(""), "WAXMSILOGTC");
    assert.equal(page.script("section_flags(0)"), "-");
    assert.deepEqual([0, 1, 2, 4, 7].map((it) => page.script(`segment_flags(${it})`)), ["---", "--X", "-W-", "R--", "RWX"]);
    assert.equal(page.script(`named("d_tag", 1)`), "NEEDED");
    assert.equal(page.script(`named("d_tag", 30)`), "FLAGS");
    assert.equal(page.script(`named("d_tag", 0x6ffffef5)`), "GNU_HASH");
    assert.equal(page.script(`named("d_tag", 0x6ffffef0)`), "0x6ffffef0");
    assert.equal(page.script(`named("d_tag", -2)`), "-0x2");
    assert.equal(page.script(`named("p_type", 7)`), "TLS");
    assert.equal(page.script(`named("st_bind", 2)`), "WEAK");
    assert.equal(page.script(`named("st_type", 2)`), "FUNC");
    assert.equal(page.script("machine_words(62)"), "machine 62 (EM_X86_64)");
    assert.equal(page.script("machine_words(11)"), "machine 11");
    assert.deepEqual([-1, -16, 0, 16].map((it) => page.script(`signed(${it})`)), ["-0x1", "-0x10", "0x0", "0x10"]);
    assert.equal(page.script("signed(-(2n ** 63n))"), "-0x8000000000000000");
    assert.deepEqual([0, 1, 2, 20000].map((it) => page.script(`counted(${it}, "part")`)), ["0 parts", "1 part", "2 parts", "20,000 parts"]);
});

const ELF_H = "/usr/include/elf.h";

test("the names of numbers are those of the C library's header", { skip: !fs.existsSync(ELF_H) }, () => {
    const header = fs.readFileSync(ELF_H, "utf8");
    const known = new Map(Array.from(header.matchAll(/^#define\s+(\w+)\s+(0x[0-9a-fA-F]+|\d+)\b/gm), ([, name, number]) => [name, Number(number)]));
    const { NAMES, KINDS, STRING_TAGS } = plain(made_page().script("({ NAMES, KINDS, STRING_TAGS })"));
    // Of each kind as many as the gABI has without those of systems and processors.
    for (const [kind, prefix, first, last] of [["p_type", "PT", 0, 7], ["st_type", "STT", 0, 6], ["st_bind", "STB", 0, 2], ["d_tag", "DT", 1, 30]]) {
        const numbers = Object.values(NAMES[kind]).map((name) => known.get(`${prefix}_${name}`));
        assert.deepEqual(Object.keys(NAMES[kind]).map(Number), numbers, kind);
        const generic = Array.from({ length: last - first + 1 }, (_, k) => first + k);
        assert.deepEqual(generic.filter((number) => NAMES[kind][number] === undefined), [], kind);
    }
    // Of LLVM's type the header has no name, and the versions of symbols are in small letters there.
    const lower = new Map([...known].map(([name, number]) => [name.toLowerCase(), number]));
    for (const [kind, prefix] of [["sh_type", "sht"], ["e_machine", "em"]]) {
        const numbers = Object.values(NAMES[kind]).map((name) => (name === "LLVM_ADDRSIG" ? 0x6fff4c03 : lower.get(`${prefix}_${name.toLowerCase()}`)));
        assert.deepEqual(Object.keys(NAMES[kind]).map(Number), numbers, kind);
    }
    const types = { SYMTAB: "symbols", DYNSYM: "symbols", RELA: "relocations", REL: "relocations", DYNAMIC: "dynamic", NOTE: "notes" };
    assert.deepEqual(KINDS, Object.fromEntries(Object.entries(types).map(([name, kind]) => [known.get(`SHT_${name}`), kind])));
    assert.deepEqual(STRING_TAGS, ["NEEDED", "SONAME", "RPATH", "RUNPATH"].map((name) => known.get(`DT_${name}`)));
});

test("a symbol is in a section, or in none", () => {
    const page = made_page();
    const place = (it) => page.script(`symbol_place(${JSON.stringify(it)})`);
    assert.equal(place({ st_shndx: 0 }), "undefined");
    assert.equal(place({ st_shndx: 0xfff1 }), "absolute");
    assert.equal(place({ st_shndx: 0xfff2 }), "common");
    assert.equal(place({ st_shndx: 0xff00 }), "0xff00");
    assert.equal(place({ st_shndx: 0xffff, section: 70000, where: ".text", is_in_section: true }), "70000 .text");
});

test("a script of the page leads nowhere and connects to nothing", () => {
    for (const name of ["declared.js", "draw.js", "names.js", "reader.js", "tables.js", "words.js", "worker.js"]) {
        const found = text_of(name).match(/\b(location|open\(\s*["'`]|RTCPeerConnection|WebTransport|fetch|XMLHttpRequest|WebSocket|EventSource|sendBeacon|importScripts)\b/);
        assert.equal(found, null, name);
        for (const [, target] of text_of(name).matchAll(/href: "([^"]*)"/g)) assert.equal(target, "#", name);
    }
});
