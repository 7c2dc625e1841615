"use strict";
// What the page draws of a file that breaks a rule: its parts in lines side by side, where the fault is, and the values that break the rule.
// `state.refused` has what the worker says of such a file, null of any other one.

// The columns in which the fields of section headers and program headers are.
const FIELD_TITLES = {
    sh_name: "name", sh_type: "type", sh_flags: "flags", sh_offset: "offset", sh_size: "size", sh_addr: "address", sh_link: "link", sh_info: "info",
    sh_addralign: "alignment", sh_entsize: "entry size", p_type: "type", p_flags: "flags", p_offset: "offset", p_vaddr: "address",
    p_filesz: "in the file", p_memsz: "in memory", p_align: "alignment",
};

// How many headers there are; of a refused file, how many lie in it.
function header_counts() {
    return state.refused?.counts ?? state.open.file;
}

function own_tables() {
    return state.refused?.tables ?? state.open.tables;
}

// The lines of parts below the first one, and where the fault is in the range.
function draw_refused(runs_of, button_of) {
    const lanes = state.refused?.lanes.slice(1) ?? [];
    $("map-lanes").replaceChildren(...lanes.map((_, k) =>
        element("div", null, { id: `map-lane-${k + 1}`, class: "bar lane", role: "group", "aria-label": `Parts that overlap, line ${k + 2}` })));
    lanes.forEach((parts, k) => draw_bar(`map-lane-${k + 1}`, runs_of(parts).map(button_of)));
    const [from, to] = state.range;
    const at = state.open.fault?.at;
    const is_in = Boolean(state.refused) && at >= from && at <= to;
    const mark = element("span", "▼", { title: `the fault, at ${is_in ? hex(at) : ""}` });
    mark.style.left = `${(at - from) * (state.width || 300) / (to - from)}px`;
    $("map-fault").replaceChildren(...(is_in ? [mark] : []));
}

function show_refused_words() {
    const own = state.refused;
    const words = [];
    if (own) words.push("This file breaks a rule. Its parts and tables are shown as far as they lie in it, and values that depend on the fault may be wrong.");
    if (own && own.lanes.length > 1) words.push("Parts that overlap are in several lines.");
    if (own?.hidden) words.push(`${counted(own.hidden, "more part overlaps", "more parts overlap")} these.`);
    const past = own?.past ?? [];
    if (past.length) words.push(`Past the end of the file, ${hex(state.open.length)}: ${past.join(", ")}${own.more ? `, and ${counted(own.more, "more part")}` : ""}.`);
    const lacking = own ? Number(own.file.sections) - own.counts.sections : 0;
    if (lacking > 0) words.push(`${counted(lacking, "section header")} of ${Number(own.file.sections).toLocaleString("en")} ${lacking === 1 ? "does" : "do"} not lie in the file.`);
    $("map-refused").textContent = words.join(" ");
}

// The titles of the columns in which a row has a value that breaks the rule.
function broken_titles(kind, index) {
    const { fault } = state.open;
    if (!state.refused || !["sections", "segments"].includes(kind)) return [];
    const { file, sharing } = state.refused;
    if (kind === "sections" && sharing.includes(index)) return ["offset", "size"];
    const [start, struct] = kind === "sections" ? [file.e_shoff, "elfmap_section"] : [file.e_phoff, "elfmap_segment"];
    const { size, fields } = LAYOUT[struct];
    const within = fault.at - Number(start) - index * size;
    const field = within >= 0 && within < size ? fields.findLast((it) => it.at <= within) : null;
    return field ? [FIELD_TITLES[field.name]] : [];
}

// ---- Archives

// The members to choose from, if the file is one of an archive.
function show_members(archive) {
    state.archive = archive;
    $("members").hidden = !archive;
    if (!archive) return void $("member").replaceChildren();
    const words = ({ name }, k) => (k < MOST_NAMED ? name || `member ${k}` : `member ${k}`);
    $("member").replaceChildren(...archive.members.map((it, k) => element("option", words(it, k), { value: k })));
    $("member").value = archive.chosen;
}

async function open_member(archive, chosen) {
    const { name, start, size } = archive.members[chosen];
    const own = archive.file.slice(start, start + size);
    await open_file(Object.assign(own, { name: `${archive.file.name}(${name || chosen})` }), { ...archive, chosen });
}
