"use strict";
// The page: it asks the worker, and draws what it answers.

const ROWS_A_TIME = 100;
const LINES_A_TIME = 32;
// So many findings are drawn, and more if somebody asks for them.
const FINDINGS_A_TIME = 100;
// In a list of tables to choose from so many have their names; all others have their numbers alone.
const MOST_NAMED = 1000;
// A part too short to be seen is drawn this wide, in points; shorter ones side by side are drawn as one.
const LEAST_WIDTH = 4;
const COLOURS = {
    "header and tables": "#6b7689", "code": "#c0504d", "data": "#e0a030", "constants": "#7f9f3f", "symbols and strings": "#4f81bd",
    "relocations": "#8064a2", "other": "#8aa0a8", "several parts": "#b9c4c9",
    "gap": "repeating-linear-gradient(45deg, transparent 0 4px, #8888 4px 6px)",
};
// Over the colour of bytes that a segment loads and that no section has.
const LOADED_ONLY = "repeating-linear-gradient(45deg, transparent 0 4px, #fff6 4px 6px)";
const LEGEND = { ...COLOURS, "loaded, in no section": `${LOADED_ONLY}, ${COLOURS.code}` };
const OWNERS = { [ELFMAP.HEADER]: "the ELF header", [ELFMAP.SECTION_HEADERS]: "the section header table",
    [ELFMAP.PROGRAM_HEADERS]: "the program header table" };
const KIND_TITLES = { sections: "Sections", segments: "Segments", symbols: "Symbols", relocations: "Relocations", dynamic: "Dynamic", notes: "Notes", sizes: "Sizes" };

const $ = (id) => document.getElementById(id);
// `turn` grows with each file, `zooms` with each view of the map, and `rows` with each view of a table: what comes for an older one is not
// drawn. `is_drawn` is true from when all of a file that has a map is drawn, but the findings, until the next file comes. `sections` has
// those sections whose parts were drawn, by their owners. `sizes` is how many rows the table of sizes has.
const state = { open: null, refused: null, archive: null, sizes: 0, parts: [], loads: [], range: [0, 0], part: null, kind: "sections", table: 0, row: 0, found: null, shown: -1, at: 0,
    marked: [0, 0], turn: 0, zooms: 0, rows: 0, is_drawn: false, sections: new Map() };

// ---- The worker

const worker = new Worker(URL.createObjectURL(new Blob([$("worker").textContent], { type: "text/javascript" })));
const waiting = new Map();
let asked = 0;

worker.onmessage = ({ data }) => {
    if ("progress" in data) return void ($("progress").value = data.progress);
    const { go_on, give_up, turn } = waiting.get(data.id);
    waiting.delete(data.id);
    // What was asked about an earlier file is not answered: all that was to be drawn of that file ends here.
    if (turn !== state.turn) return;
    "fault" in data ? give_up(new Error(data.fault)) : go_on(data.value);
};
worker.postMessage({ module: Uint8Array.from(atob(MODULE), (it) => it.charCodeAt(0)) });

function ask(question, ...words) {
    return new Promise((go_on, give_up) => {
        waiting.set(++asked, { go_on, give_up, turn: state.turn });
        worker.postMessage({ id: asked, ask: question, words });
    });
}

// ---- Elements

function element(name, words, attributes = {}, ...children) {
    const made = document.createElement(name);
    if (words !== null) made.textContent = words;
    for (const [key, value] of Object.entries(attributes)) key.startsWith("on") ? (made[key] = value) : made.setAttribute(key, value);
    made.append(...children);
    return made;
}

function say(words) {
    $("said").textContent = words;
}

// A button that shows all of a name, of which only the first characters are on the page; nothing for a name that is not cut. A very long
// name comes in parts: the page is not held up.
function buttons_of(...wholes) {
    const own = wholes.filter((it, k) => it && wholes.findIndex((other) => other?.start === it.start) === k);
    return own.flatMap((it) => [" ", whole_button(it)]);
}

function whole_button({ start, len, whose = "this name" }) {
    const button = element("button", `Show all ${counted(len, "byte")} of ${whose}`, { type: "button", class: "more" });
    const box = element("div", "", { class: "whole", tabindex: "0", role: "group", "aria-label": "The whole name" });
    let at = start;
    button.onclick = async () => {
        button.disabled = true;
        const { text, next } = await ask("name", at, start + len);
        at = next;
        if (!box.isConnected) button.after(box);
        box.append(text);
        Object.assign(button, { disabled: false, textContent: `Show more: ${counted(start + len - at, "byte")} of ${whose} are left` });
        if (at < start + len) return;
        button.remove();
        box.focus();
    };
    return button;
}

// ---- Opening

// Opens a file, which may be the chosen member of an archive.
async function open_file(file, archive = null) {
    state.turn++;
    forget_file();
    show_members(archive);
    $("progress").hidden = false;
    $("progress").value = 0;
    say(`Reading ${file.name} …`);
    try {
        state.open = await ask("open", file);
        if (state.open.archive) return await open_archive(file, state.open.archive);
        await show_file();
        say(`${file.name}: ${counted(file.size, "byte")}`);
        document.title = `${file.name} - elfmap`;
        document.body.dataset.ready = String(state.turn);
    } catch (fault) {
        say(`${file.name || "This"} can't be read: it may be a folder, or have changed, or be gone. (${fault.message})`);
    }
    $("progress").hidden = true;
}

// Shows the first member of an archive.
async function open_archive(file, members) {
    $("progress").hidden = true;
    if (!members.length) return say(`${file.name} is an archive without members that can be read.`);
    await open_member({ file, members }, 0);
}

// Nothing of the page is about the file before: neither what is drawn, nor what was typed, nor the name in the chooser.
function forget_file() {
    Object.assign(state, { open: null, refused: null, sizes: 0, is_drawn: false, parts: [], loads: [], part: null, kind: "", table: 0, sections: new Map() });
    $("main").hidden = true;
    document.title = "elfmap";
    for (const id of ["memory-words", "bytes-words", "table-words", "map-refused"]) $(id).textContent = "";
    $("offset").value = "";
    clear_filter();
    show_part_name();
}

async function show_file() {
    const { fault } = state.open;
    state.refused = fault ? await ask("refused", fault) : null;
    $("main").hidden = false;
    show_verdict();
    const has_map = !fault || Boolean(state.refused);
    for (const id of ["map-section", "tables-section"]) $(id).hidden = !has_map;
    const { start, length } = fault ? field_at(fault.at) : { start: 0, length: 0 };
    if (has_map) await show_map_and_tables();
    await show_bytes(start - start % 16, [start, start + length]);
    document.body.dataset.took = state.open.took.toFixed(1);
    state.is_drawn = has_map;
    // The window may have changed meanwhile.
    if (state.is_drawn && $("map").clientWidth !== state.width) await redraw_bars();
    if (!fault) await ask("findings").then(show_findings, ({ message }) => { $("findings-words").textContent = `The tables are not checked: ${message}.`; });
}

async function show_map_and_tables() {
    const { parts } = state.open;
    const { sections, segments } = header_counts();
    state.loads = await loadable_segments();
    const own = state.refused ? state.refused.lanes[0] : parts ? await ask("parts", 0, parts) : [];
    state.parts = with_segments(own, loaded_ranges(state.loads));
    show_refused_words();
    await zoom(0, state.open.length);
    show_memory();
    show_tabs();
    $("tables-section").hidden = sections + segments === 0;
    await open_table(sections ? "sections" : "segments", 0, 0);
}

// ---- The verdict

function show_verdict() {
    const { fault, header, file } = state.open;
    const verdict = $("verdict");
    verdict.className = fault ? "broken" : "sound";
    $("findings-words").textContent = "";
    $("findings").replaceChildren();
    $("findings-on").hidden = true;
    if (fault) {
        const [name, sentence, advice] = RULES[fault.rule];
        verdict.textContent = `Refused by rule ${fault.rule}, ${name}, at ${hex(fault.at)}: ${sentence}.`;
        const words = ` ${shared_words() ?? field_at(fault.at).words} What to do: ${advice}.`;
        const buttons = buttons_of(...state.open.owners.first.map((it) => it.whole));
        $("advice").replaceChildren(link_to({ bytes: fault.at, length: field_at(fault.at).length }, `Go to ${hex(fault.at)}.`), words, ...buttons);
    } else {
        verdict.textContent = "Sound: this file keeps all 33 rules of an ELF-64 file.";
        $("advice").textContent = "";
    }
    $("facts").textContent = header && file ? facts(header, file) : "";
}

// The owners of a byte that several parts have.
function shared_words() {
    const { first, more } = state.open.owners;
    const owners = first.map(({ words, start, end }) => `${words} [${hex(start)}, ${hex(end)})`);
    if (more) owners.push(counted(more, "more section"));
    return owners.length > 1 ? `${owners.slice(0, -1).join(", ")} and ${owners.at(-1)} share this byte.` : null;
}

// How many tables break a rule, and the first of them.
async function show_findings(count) {
    $("findings-words").textContent = count
        ? `${counted(count, "table breaks", "tables break")} a rule of tables.` : "No table breaks a rule of tables.";
    state.findings = count;
    await more_findings();
}

async function more_findings() {
    const drawn = $("findings").children.length;
    const rows = await ask("finding_rows", drawn, FINDINGS_A_TIME);
    if (drawn !== $("findings").children.length) return;
    $("findings").append(...rows.map(finding));
    $("findings-on").hidden = drawn + rows.length >= state.findings;
    $("findings-on").textContent = `Show more of the ${counted(state.findings, "table")}`;
}

// Of a table that breaks a rule: which one, by which rule, where, and what to do.
function finding({ section, table, rule, at, words, length, wholes }) {
    const [name, sentence, advice] = RULES[rule];
    const [own, place] = [link_to({ kind: "sections", row: section }, table), link_to({ bytes: at, length }, hex(at))];
    const told = `, ${words}: ${sentence}. What to do: ${advice}.`;
    return element("li", null, {}, own, `: rule ${rule}, ${name}, at `, place, told, ...buttons_of(...wholes));
}

function facts(header, file) {
    const order = header.e_ident[5] === 2 ? "big-endian" : "little-endian";
    return `${named("e_type", header.e_type)}, ${machine_words(header.e_machine)}, ${order}, entry ${hex(header.e_entry)}, ` +
        `${counted(file.sections, "section")}, ${counted(file.segments, "segment")}`;
}

// The field of a record that is at an offset.
function field_at(offset) {
    const { header, file, length } = state.open;
    const tables = header ? [["the ELF header", 0, 1, "elfmap_header"]] : [];
    if (file?.e_shoff) tables.push(["section header", file.e_shoff, file.sections, "elfmap_section"]);
    if (file?.e_phoff) tables.push(["program header", file.e_phoff, file.segments, "elfmap_segment"]);
    for (const [words, start, count, struct] of tables) {
        const { size, fields } = LAYOUT[struct];
        if (offset < start || offset >= Number(start) + count * size) continue;
        const index = Math.floor((offset - start) / size);
        const field = fields.findLast((it) => start + index * size + it.at <= offset);
        const whose = struct === "elfmap_header" ? words : `${words} ${index}`;
        return { start: start + index * size + field.at, length: field.width * (field.count ?? 1), words: `That is the field ${field.name} of ${whose}.` };
    }
    return { start: offset, length: offset < length ? 1 : 0, words: offset < length ? "That is the byte marked below." : "That is the end of the file." };
}

// ---- The map

async function zoom(from, to) {
    const own = ++state.zooms;
    state.range = [from, Math.max(to, from + 1)];
    state.width = $("map").clientWidth;
    const lanes = [state.parts, ...(state.refused?.lanes.slice(1) ?? [])];
    const runs = lanes.flatMap((it) => runs_of_parts(it));
    const owners = new Set(runs.filter((it) => it.count === 1).map((it) => it.part.owner).filter((it) => it >= ELFMAP.CONTENTS));
    for (const owner of owners) {
        if (state.sections.has(owner)) continue;
        const [section] = await ask("sections", owner - ELFMAP.CONTENTS, 1);
        state.sections.set(owner, section);
        if (own !== state.zooms) return;
    }
    draw_map();
}

// Draws the range with the names that are known.
function draw_map() {
    const [from, to] = state.range;
    draw_bar("map", runs_of_parts().map(map_button));
    draw_refused(runs_of_parts, map_button);
    $("map-scale").replaceChildren(element("span", hex(state.range[0])), element("span", hex(state.range[1])));
    $("legend").replaceChildren(...Object.entries(LEGEND).map(([words, colour]) => element("li", null, {}, coloured(colour), words)));
    show_part_words();
    for (const [id, is_whole] of [["zoom-out", true], ["zoom-whole", true], ["zoom-in", false]]) {
        $(id).disabled = is_whole ? from === 0 && to >= state.open.length : !state.part;
    }
}

function coloured(colour) {
    const made = element("span", "");
    made.style.background = colour;
    return made;
}

// The parts of the range, those too short to be seen in runs, each with its place in points.
function runs_of_parts(parts = state.parts) {
    const [from, to] = state.range;
    const scale = (state.width || 300) / (to - from);
    const runs = [];
    for (const [index, part] of parts.entries()) {
        if (part.start + part.len <= from || part.start >= to) continue;
        const [left, right] = [(Math.max(part.start, from) - from) * scale, (Math.min(part.start + part.len, to) - from) * scale];
        const last = runs.at(-1);
        if (last && right - left < LEAST_WIDTH && last.right - last.left < LEAST_WIDTH) {
            Object.assign(last, { right, end: part.start + part.len, count: last.count + 1 });
        } else {
            runs.push({ left, right, start: part.start, end: part.start + part.len, count: 1, part, index });
        }
    }
    return runs;
}

// The ranges of the file that loadable segments put into memory, ascending and apart, each with the first segment that has it.
function loaded_ranges(loads) {
    const own = loads.filter((it) => it.p_filesz > 0);
    const ends = ({ p_offset, p_filesz }) => [Number(p_offset), Number(p_offset) + Number(p_filesz)];
    const cuts = [...new Set(own.flatMap(ends))].sort((a, b) => a - b);
    const ranges = cuts.slice(1).map((end, k) => ({ start: cuts[k], end }));
    const segment_of = ({ start, end }) => own.find((it) => ends(it)[0] <= start && end <= ends(it)[1]);
    return ranges.map((it) => ({ ...it, segment: segment_of(it) })).filter((it) => it.segment);
}

// The parts, each gap cut where a range of a loadable segment begins or ends: its bytes are in no section, but they are loaded.
function with_segments(parts, ranges) {
    let next = 0;
    return parts.flatMap((part) => {
        if (part.owner !== null) return [part];
        const [pieces, end] = [[], part.start + part.len];
        let at = part.start;
        const piece = (to, segment) => {
            if (at < to) pieces.push({ ...part, start: at, len: to - at, segment });
            at = Math.max(at, to);
        };
        while (next < ranges.length && ranges[next].end <= at) next++;
        for (let k = next; k < ranges.length && ranges[k].start < end; k++) {
            piece(ranges[k].start);
            piece(Math.min(ranges[k].end, end), ranges[k].segment);
        }
        piece(end);
        return pieces;
    });
}

function kind_of_segment({ p_flags }) {
    return p_flags & 1 ? "code" : p_flags & 2 ? "data" : "constants";
}

function kind_of_part(owner, section) {
    if (owner === null) return "gap";
    if (owner < ELFMAP.CONTENTS) return "header and tables";
    if (!section) return "other";
    if ([2, 3, 5, 11, 18].includes(section.sh_type)) return "symbols and strings";
    if ([4, 9].includes(section.sh_type)) return "relocations";
    if ([6, 7, 14, 15, 16, 17].includes(section.sh_type)) return "other";
    const flags = BigInt(section.sh_flags);
    return flags & 4n ? "code" : flags & 1n ? "data" : flags & 2n ? "constants" : "other";
}

function colour_of_part({ owner, segment }, section) {
    return segment ? `${LOADED_ONLY}, ${COLOURS[kind_of_segment(segment)]}` : COLOURS[kind_of_part(owner, section)];
}

function owner_words({ owner, segment }, section) {
    if (segment) return `segment ${segment.index}, ${segment_flags(segment.p_flags)}, in no section`;
    if (owner === null) return "a gap: no record says whose these bytes are";
    return OWNERS[owner] ?? `section ${owner - ELFMAP.CONTENTS} ${section ? section.name || "(no name)" : "…"}`;
}

function map_button(run) {
    const section = state.sections.get(run.part.owner);
    const words = run.count > 1 ? `${run.count.toLocaleString("en")} parts` : owner_words(run.part, section);
    const colour = run.count > 1 ? COLOURS["several parts"] : colour_of_part(run.part, section);
    const told = `${words}: ${counted(run.end - run.start, "byte")} from ${hex(run.start)}`;
    const whole = run.count > 1 ? null : section?.whole;
    const go = run.count > 1 ? () => zoom(run.start, run.end) : () => choose_part(run.part, told, whole);
    const is_chosen = run.count === 1 && state.part?.start === run.part.start && state.part.owner === run.part.owner;
    return bar_button(run, colour, told, go, "map-words", is_chosen);
}

function bar_button({ left, right }, colour, told, go, words, is_current = false) {
    const made = element("button", "", { type: "button", "aria-label": told, "aria-current": String(is_current) });
    Object.assign(made.style, { left: `${left}px`, width: `${Math.max(right - left, 2)}px`, background: colour });
    made.onclick = go;
    made.onmouseenter = made.onfocus = () => { $(words).textContent = told; };
    return made;
}

// One of the buttons can be reached by the tabulator; the arrows lead to the others.
function draw_bar(id, buttons) {
    const current = Math.max(0, buttons.findIndex((it) => it.getAttribute("aria-current") === "true"));
    buttons.forEach((it, k) => { it.tabIndex = k === current ? 0 : -1; });
    $(id).replaceChildren(...buttons);
    $(id).onkeydown = (event) => {
        const at = buttons.indexOf(document.activeElement);
        const to = { ArrowRight: at + 1, ArrowLeft: at - 1, Home: 0, End: buttons.length - 1 }[event.key];
        if (event.key === "Escape" && id === "map") return void zoom_out();
        if (at < 0 || !buttons[to]) return;
        event.preventDefault();
        buttons[at].tabIndex = -1;
        buttons[to].tabIndex = 0;
        buttons[to].focus();
    };
}

async function choose_part(part, told, whole) {
    state.part = { ...part, told, whole };
    for (const it of [$("map"), ...$("map-lanes").children].flatMap((bar) => [...bar.children])) {
        const is_current = it.getAttribute("aria-label") === told;
        it.setAttribute("aria-current", String(is_current));
        it.tabIndex = is_current ? 0 : -1;
    }
    $("zoom-in").disabled = false;
    show_part_words();
    show_part_name();
    await show_range(part.start, part.len);
}

function show_part_words() {
    $("map-words").textContent = state.part?.told ?? `${counted(state.parts.length, "part")}. Choose one to see its bytes.`;
}

// The buttons are beside the words, which change with what the mouse is over and are read aloud.
function show_part_name() {
    const whole = state.part?.whole;
    $("map-name").replaceChildren(...buttons_of(whole && { ...whole, whose: "the name of the chosen part" }));
}

function zoom_out() {
    const [from, to] = state.range;
    const [middle, width] = [(from + to) / 2, (to - from) * 4];
    const start = Math.max(0, Math.floor(middle - width / 2));
    return zoom(start, Math.min(state.open.length, Math.ceil(start + width)));
}

// ---- The bar by address

async function loadable_segments() {
    const { header } = state.open;
    const segments = header.e_type > 1 ? await ask("segments", 0, Math.min(header_counts().segments, 1000)) : [];
    return segments.filter((it) => it.p_type === 1 && it.p_memsz > 0);
}

function show_memory() {
    const { loads } = state;
    $("memory-section").hidden = !loads.length;
    if (!loads.length) return;
    const [low, high] = [Math.min(...loads.map((it) => Number(it.p_vaddr))), Math.max(...loads.map((it) => Number(it.p_vaddr) + Number(it.p_memsz)))];
    const scale = $("memory").clientWidth / (high - low);
    draw_bar("memory", loads.map((it) => {
        const left = (Number(it.p_vaddr) - low) * scale;
        const told = `segment ${it.index}, ${segment_flags(it.p_flags)}: ${counted(it.p_memsz, "byte")} from address ${hex(it.p_vaddr)}, ` +
            `${counted(it.p_filesz, "byte")} of them from offset ${hex(it.p_offset)} of the file`;
        const colour = COLOURS[kind_of_segment(it)];
        const go = () => show_range(it.p_offset, it.p_filesz);
        return bar_button({ left, right: left + Number(it.p_memsz) * scale }, colour, told, go, "memory-words");
    }));
    $("memory-scale").replaceChildren(element("span", hex(low)), element("span", hex(high)));
}

// ---- The tables

function tables_of(kind) {
    if (kind === "sections" || kind === "segments") return [{ section: 0, entries: header_counts()[kind], name: "" }];
    if (kind === "sizes") return [{ section: 0, entries: state.sizes, name: "" }];
    return own_tables().filter((it) => it.kind === kind);
}

function show_tabs() {
    // The sizes are counted when they are asked for.
    const kinds = Object.keys(KIND_TITLES).filter((it) => it === "sizes" || tables_of(it).some((table) => table.entries));
    const tabs = kinds.map((kind) => {
        const count = tables_of(kind).reduce((sum, it) => sum + it.entries, 0);
        return element("button", kind === "sizes" ? KIND_TITLES.sizes : `${KIND_TITLES[kind]} (${count.toLocaleString("en")})`,
            { type: "button", role: "tab", id: `tab-${kind}`, "aria-controls": "panel", onclick: () => open_table(kind, tables_of(kind)[0].section, 0) });
    });
    $("tabs").replaceChildren(...tabs);
    $("tabs").onkeydown = (event) => {
        const to = tabs.indexOf(document.activeElement) + { ArrowRight: 1, ArrowLeft: -1 }[event.key];
        if (tabs[to]) tabs[to].focus();
    };
}

// Shows the rows of a table from one on, which may be marked.
async function open_table(kind, section, row, shown = -1) {
    if (kind === "sizes" && !state.sizes) state.sizes = await ask("size_count");
    const table = tables_of(kind).find((it) => it.section === section);
    if (!table) return;
    if (kind !== state.kind || section !== state.table || shown >= 0) clear_filter();
    Object.assign(state, { kind, table: section, row, shown });
    for (const it of $("tabs").children) {
        const is_own = it.id === `tab-${kind}`;
        it.setAttribute("aria-selected", String(is_own));
        it.tabIndex = is_own ? 0 : -1;
    }
    $("panel").setAttribute("aria-labelledby", `tab-${kind}`);
    show_choice(kind, section);
    await show_rows(table);
}

function show_choice(kind, section) {
    const tables = tables_of(kind);
    $("which-label").hidden = tables.length < 2;
    // There may be many: they are drawn once.
    if (state.choice !== `${state.turn} ${kind}`) {
        const words = ({ section: own, name }, k) => (k < MOST_NAMED ? `${own} ${name}` : String(own));
        $("which").replaceChildren(...tables.map((it, k) => element("option", words(it, k), { value: it.section })));
        state.choice = `${state.turn} ${kind}`;
    }
    $("which").value = section;
}

async function show_rows(table) {
    const { kind, found } = state;
    const own = ++state.rows;
    const count = found ? found.length : table.entries;
    const end = Math.min(state.row + ROWS_A_TIME, count);
    const rows = found
        ? (await Promise.all(found.slice(state.row, end).map((it) => ask(kind, it, 1, state.table)))).flat()
        : await ask(kind, state.row, end - state.row, state.table);
    if (own !== state.rows) return;
    $("table").tHead.replaceChildren(element("tr", null, {}, ...["index", ...COLUMNS[kind].map(([title]) => title)].map((it) => element("th", it, { scope: "col" }))));
    $("table").tBodies[0].replaceChildren(...rows.map((row) => table_row(kind, row)));
    const all = table.entries.toLocaleString("en");
    $("table-words").textContent = count
        ? `${KIND_TITLES[kind]} ${(state.row + 1).toLocaleString("en")} to ${end.toLocaleString("en")} of ${found ? `${count.toLocaleString("en")} found among ` : ""}${all}`
        : found ? `None of ${all} holds this.` : "This table is empty.";
    $("rows-back").disabled = state.row === 0;
    $("rows-on").disabled = end >= count;
    $("table").querySelector(".shown")?.scrollIntoView({ block: "nearest" });
}

function table_row(kind, row) {
    const broken = broken_titles(kind, row.index);
    const cells = COLUMNS[kind].map(([title, words, link, whole]) => {
        const to = link?.(row);
        const own = broken.includes(title) ? { class: "broken" } : {};
        const mark = broken.includes(title) ? [" !"] : [];
        return element("td", to ? null : words(row), own, ...(to ? [link_to(to, words(row))] : []), ...mark, ...buttons_of(whole?.(row)));
    });
    const own = kind === "sections" && has_content(row) && row.sh_size
        ? link_to({ bytes: row.sh_offset, length: row.sh_size }, String(row.index)) : String(row.index);
    return element("tr", null, row.index === state.shown ? { class: "shown" } : {}, element("td", null, {}, own), ...cells);
}

function link_to(to, words) {
    const go = (event) => {
        event.preventDefault();
        if ("bytes" in to) return void show_range(to.bytes, to.length).then(() => $("bytes-title").scrollIntoView());
        const first = to.row - to.row % ROWS_A_TIME;
        open_table(to.kind, to.table ?? 0, first, to.row).then(() => $(`tab-${to.kind}`)?.focus());
    };
    return element("a", words, { href: "#", onclick: go });
}

function clear_filter() {
    state.found = null;
    $("filter").value = "";
    $("progress").hidden = true;
}

async function filter_rows() {
    const text = $("filter").value;
    const table = tables_of(state.kind).find((it) => it.section === state.table);
    if (text) {
        $("progress").hidden = false;
        const found = await ask("search", state.kind, state.table, table.entries, text);
        // Meanwhile the text may have changed, as it does when another table is chosen.
        if (found === null || text !== $("filter").value) return;
        $("progress").hidden = true;
        state.found = found;
    } else {
        clear_filter();
    }
    state.row = 0;
    await show_rows(table);
}

// ---- The bytes

function line_length() {
    return window.innerWidth < 640 ? 8 : 16;
}

// A segment without bytes may be at an offset that no file has, and that comes as a BigInt.
function show_range(start, length) {
    return show_bytes(Number(start), [Number(start), Number(start) + Number(length)]);
}

async function show_bytes(at, marked) {
    const { length } = state.open;
    const line = line_length();
    const front = Math.max(0, Math.min(at, Math.max(0, length - 1)));
    Object.assign(state, { at: front, marked });
    const bytes = await ask("bytes", front, line * LINES_A_TIME);
    if (front !== state.at || marked !== state.marked) return;
    const lines = [];
    for (let k = 0; k < bytes.length; k += line) lines.push(bytes_line(state.at + k, bytes.subarray(k, k + line)));
    $("bytes").tBodies[0].replaceChildren(...lines);
    $("bytes-words").textContent = bytes.length ? `Bytes ${hex(state.at)} to ${hex(state.at + bytes.length - 1)} of ${counted(length, "byte")}` : "This file is empty.";
    $("bytes-back").disabled = state.at === 0;
    $("bytes-on").disabled = state.at + bytes.length >= length;
}

function bytes_line(at, bytes) {
    const is_marked = (k) => at + k >= state.marked[0] && at + k < state.marked[1];
    const digits = Array.from(bytes, (it) => it.toString(16).padStart(2, "0"));
    const letters = Array.from(bytes, (it) => (it > 32 && it < 127 ? String.fromCharCode(it) : "."));
    const cell = (words, between) => element("td", null, {}, ...runs_of_words(words, is_marked, between));
    return element("tr", null, {}, element("th", hex(at), { scope: "row" }), cell(digits, " "), cell(letters, ""));
}

// Words side by side, those that are marked in `mark` elements.
function runs_of_words(words, is_marked, between) {
    const found = [];
    for (let k = 0; k < words.length;) {
        let end = k + 1;
        while (end < words.length && is_marked(end) === is_marked(k)) end++;
        const run = words.slice(k, end).join(between) + (end < words.length ? between : "");
        found.push(is_marked(k) ? element("mark", run) : run);
        k = end;
    }
    return found;
}

function go_to_offset() {
    const words = $("offset").value.trim();
    const offset = /^(?:\d+|0x[\da-f]+)$/i.test(words) ? Number(words) : NaN;
    if (Number.isSafeInteger(offset)) show_bytes(offset, [offset, offset + 1]);
    else $("bytes-words").textContent = "An offset is a number, as 64 or 0x40.";
}

// ---- What people do

$("chosen").onchange = () => $("chosen").files[0] && open_file($("chosen").files[0]);
$("zoom-in").onclick = () => state.part && zoom(state.part.start, state.part.start + state.part.len);
$("zoom-out").onclick = zoom_out;
$("zoom-whole").onclick = () => zoom(0, state.open.length);
$("member").onchange = () => open_member(state.archive, Number($("member").value));
$("which").onchange = () => open_table(state.kind, Number($("which").value), 0);
$("findings-on").onclick = more_findings;
$("rows-back").onclick = () => open_table(state.kind, state.table, Math.max(0, state.row - ROWS_A_TIME));
$("rows-on").onclick = () => open_table(state.kind, state.table, state.row + ROWS_A_TIME);
$("filter").oninput = filter_rows;
$("go").onclick = go_to_offset;
// A handler that answers false keeps the key from the field.
$("offset").onkeydown = (event) => void (event.key === "Enter" && go_to_offset());
$("bytes-back").onclick = () => show_bytes(state.at - line_length() * LINES_A_TIME, state.marked);
$("bytes-on").onclick = () => show_bytes(state.at + line_length() * LINES_A_TIME, state.marked);

// At once, with the names that are known: the worker may be busy, and gives those that lack when it is free.
async function redraw_bars() {
    state.width = $("map").clientWidth;
    draw_map();
    show_memory();
    await zoom(...state.range);
}

// While a file is read there is nothing to draw: what is drawn at its end has the width that the window has then.
let resizing;
window.onresize = () => {
    clearTimeout(resizing);
    resizing = setTimeout(() => state.is_drawn && redraw_bars(), 200);
};

document.ondragover = (event) => {
    event.preventDefault();
    document.body.classList.add("over");
};
document.ondragleave = () => document.body.classList.remove("over");
document.ondrop = (event) => {
    event.preventDefault();
    document.body.classList.remove("over");
    const [item] = event.dataTransfer.items;
    if (item?.webkitGetAsEntry?.()?.isDirectory) return say("This is a folder: drop one file of it.");
    const [file, ...more] = event.dataTransfer.files;
    if (!file) return say("This is no file: drop one from a folder.");
    // The chooser names another file.
    $("chosen").value = "";
    open_file(file).then(() => more.length && say(`${$("said").textContent}. Of several files the first one is shown.`));
};
