"use strict";
// Which tables of a sound file break a rule of tables (docs/RULES.md, 41 to 69), and where. The library for C in the page has no call for
// these rules, because `elfmap show`, which answers them, takes memory. So they are written here once more, and are not proved: the tests
// compare what is found here with what `elfmap show` prints, of thousands of files.

const ENTRY_SIZES = {
    [SHT.SYMTAB]: 24, [SHT.DYNSYM]: 24, [SHT.RELA]: 24, [SHT.REL]: 16, [SHT.DYNAMIC]: 16, [SHT.GROUP]: 4, [SHT.HASH]: 4,
};
// The types of sections that a table may link to.
const OF_SYMBOLS = [SHT.SYMTAB, SHT.DYNSYM];
const LINKED_TYPES = {
    [SHT.SYMTAB]: [SHT.STRTAB], [SHT.DYNSYM]: [SHT.STRTAB], [SHT.DYNAMIC]: [SHT.STRTAB], [SHT.RELA]: OF_SYMBOLS, [SHT.REL]: OF_SYMBOLS,
    [SHT.HASH]: OF_SYMBOLS, [SHT.GROUP]: [SHT.SYMTAB],
};
const FIELD_PLACES = { sh_type: 4, sh_size: 32, sh_link: 40, sh_info: 44, sh_entsize: 56 };
const RESERVED_FROM = 0xff00;
const IN_GROUP = 0x200n;
// Names of so many bytes are hashed, so that no file holds the page up. The hash of one that is not short is kept.
const MOST_HASHED = 2 ** 30;
const MOST_SHORT = 64;

class Tables {
    // Of the bytes of a sound file, its section headers as the reader has them, and where their table is.
    constructor(bytes, is_little, sections, section_table) {
        this.view = new DataView(bytes.buffer, bytes.byteOffset, bytes.byteLength);
        this.bytes = bytes;
        this.is_little = is_little;
        this.sections = sections;
        this.section_table = section_table;
        this.known = new Map();
        this.spent = 0;
        // The hashes of names, by their string table and their offset: tables may share them, and names may be long.
        this.hashes = new Map();
        this.index_tables = new Map();
        sections.forEach((it, index) => {
            if (it.sh_type === SHT.SYMTAB_SHNDX) this.index_tables.set(it.sh_link, [...(this.index_tables.get(it.sh_link) ?? []), index]);
        });
    }

    // The first rule that the table in a section breaks, and the lowest offset at which it does; null where it breaks none.
    verdict(index) {
        if (!this.known.has(index)) this.known.set(index, this.broken(index));
        return this.known.get(index);
    }

    // The verdicts of all tables, each cause once: of tables with the same fault the symbol table has it, or else the first one.
    findings() {
        const found = new Map();
        this.sections.forEach(({ sh_type }, index) => {
            const fault = TABLE_RULES[sh_type] && this.verdict(index);
            if (!fault) return;
            const [key, is_symbols] = [`${fault.rule} ${fault.at}`, sh_type === SHT.SYMTAB || sh_type === SHT.DYNSYM];
            const before = found.get(key);
            if (!before || (is_symbols && !before.is_symbols)) found.set(key, { section: index, is_symbols, ...fault });
        });
        return [...found.values()];
    }

    broken(index) {
        const { sh_type, sh_link } = this.sections[index];
        if (sh_type === SHT.STRTAB) return this.first([[41, unclosed_string_table]], index);
        const own = ENTRY_SIZES[sh_type] ? this.first(OWN_RULES, index) : null;
        const linked = !own && LINKED_TYPES[sh_type] ? this.verdict(sh_link) : null;
        return own ?? linked ?? this.first(TABLE_RULES[sh_type], index);
    }

    first(rules, index) {
        for (const [rule, offset_of] of rules) {
            const at = offset_of(this, index);
            if (at >= 0) return { rule, at };
        }
        return null;
    }

    // ---- What the rules look at

    field(index, name) {
        return this.section_table + 64 * index + FIELD_PLACES[name];
    }

    is_section(index) {
        return index < this.sections.length;
    }

    start(index) {
        return this.sections[index].sh_offset;
    }

    end(index) {
        return this.start(index) + this.sections[index].sh_size;
    }

    count(index) {
        return Math.floor(this.sections[index].sh_size / ENTRY_SIZES[this.sections[index].sh_type]);
    }

    half(at) {
        return this.view.getUint16(at, this.is_little);
    }

    word(at) {
        return this.view.getUint32(at, this.is_little);
    }

    long(at) {
        return this.view.getBigUint64(at, this.is_little);
    }

    // The symbol of a relocation: the upper half of r_info.
    relocated(entry) {
        return this.word(entry + (this.is_little ? 12 : 8));
    }
}

// The lowest offset of an entry's field, at `place` in it, of an entry for which a test holds; -1 where there is none.
function entry_where(tables, index, place, test, from = 0, to = tables.count(index)) {
    const { sh_type } = tables.sections[index];
    for (let k = from, at = tables.start(index) + from * ENTRY_SIZES[sh_type]; k < to; k++, at += ENTRY_SIZES[sh_type]) {
        if (test(at, k)) return at + place;
    }
    return -1;
}

// Each rule is a function of the tables and the section's index: the lowest offset at which it is broken, -1 where it is kept.

function unclosed_string_table(tables, index) {
    const [start, end] = [tables.start(index), tables.end(index)];
    if (start === end) return -1;
    return tables.bytes[start] ? start : tables.bytes[end - 1] ? end - 1 : -1;
}

const OWN_RULES = [
    [42, (it, k) => (it.sections[k].sh_entsize !== ENTRY_SIZES[it.sections[k].sh_type] ? it.field(k, "sh_entsize") : -1)],
    [43, (it, k) => (it.sections[k].sh_size % ENTRY_SIZES[it.sections[k].sh_type] ? it.field(k, "sh_size") : -1)],
    [44, (it, k) => {
        const { sh_type, sh_link } = it.sections[k];
        return it.is_section(sh_link) && LINKED_TYPES[sh_type].includes(it.sections[sh_link].sh_type) ? -1 : it.field(k, "sh_link");
    }],
];

// ---- Symbol tables

function symbol_0_not_null(tables, index) {
    if (!tables.sections[index].sh_size) return tables.field(index, "sh_size");
    for (let at = tables.start(index); at < tables.start(index) + 24; at++) if (tables.bytes[at]) return at;
    return -1;
}

function wrong_index_table_size(tables, index) {
    const [table] = tables.index_tables.get(index) ?? [];
    if (table === undefined) return -1;
    if (tables.sections[table].sh_size !== 4 * tables.count(index)) return tables.field(table, "sh_size");
    return tables.sections[table].sh_entsize !== 4 ? tables.field(table, "sh_entsize") : -1;
}

function wrong_symbol_section(tables, index) {
    const has_words = tables.index_tables.has(index);
    return entry_where(tables, index, 6, (at) => {
        const section = tables.half(at + 6);
        return section === SHN.XINDEX ? !has_words : section < RESERVED_FROM && !tables.is_section(section);
    });
}

function wrong_index_word(tables, index) {
    const [table] = tables.index_tables.get(index) ?? [];
    if (table === undefined) return -1;
    const start = tables.start(table);
    const is_wrong = (at, k) => {
        const word = tables.word(start + 4 * k);
        return tables.half(at + 6) === SHN.XINDEX ? word < RESERVED_FROM || !tables.is_section(word) : word !== 0;
    };
    const found = entry_where(tables, index, 0, is_wrong);
    return found < 0 ? -1 : start + 4 * ((found - tables.start(index)) / 24);
}

const SYMBOL_RULES = [
    [45, symbol_0_not_null],
    [46, (it, k) => (it.sections[k].sh_info === 0 || it.sections[k].sh_info > it.count(k) ? it.field(k, "sh_info") : -1)],
    [47, (it, k) => entry_where(it, k, 4, (at, s) => it.bytes[at + 4] >> 4 === 0 !== s < it.sections[k].sh_info)],
    [48, (it, k) => {
        const names = it.sections[it.sections[k].sh_link].sh_size;
        return entry_where(it, k, 0, (at) => it.word(at) !== 0 && it.word(at) >= names);
    }],
    [49, (it, k) => {
        const [, second] = it.index_tables.get(k) ?? [];
        return second === undefined ? -1 : it.field(second, "sh_link");
    }],
    [50, wrong_index_table_size],
    [51, wrong_symbol_section],
    [52, wrong_index_word],
];

// ---- Relocations and groups

const RELOCATION_RULES = [
    [53, (it, k) => (it.is_section(it.sections[k].sh_info) ? -1 : it.field(k, "sh_info"))],
    [54, (it, k) => {
        const count = it.count(it.sections[k].sh_link);
        return entry_where(it, k, 8, (at) => it.relocated(at) >= count);
    }],
];

function wrong_member(tables, index) {
    const seen = new Set();
    return entry_where(tables, index, 0, (at) => {
        const member = tables.word(at);
        const is_right = member > index && tables.is_section(member) && !seen.has(member) && BigInt(tables.sections[member].sh_flags) & IN_GROUP;
        seen.add(member);
        return !is_right;
    }, 1);
}

const GROUP_RULES = [
    [55, (it, k) => (it.sections[k].sh_size ? -1 : it.field(k, "sh_size"))],
    [56, (it, k) => (it.word(it.start(k)) > 1 ? it.start(k) : -1)],
    [57, (it, k) => {
        const { sh_info, sh_link } = it.sections[k];
        return sh_info > 0 && sh_info < it.count(sh_link) ? -1 : it.field(k, "sh_info");
    }],
    [58, wrong_member],
];

// ---- Notes

// Goes over the notes until one breaks a rule: `test` says where, by the note's beginning, the sizes of its parts, and the end of them all.
function note_where(tables, index, test) {
    const end = tables.end(index);
    for (let at = tables.start(index); at < end;) {
        const [name, desc] = end - at >= 12 ? [tables.word(at), tables.word(at + 4)] : [0, 0];
        const found = test(at, name, desc, end);
        if (found >= 0) return found;
        at += 12 + padded(name) + padded(desc);
    }
    return -1;
}

function padded(size) {
    return Math.ceil(size / 4) * 4;
}

const NOTE_RULES = [
    [59, (it, k) => note_where(it, k, (at, name, desc, end) => (end - at < 12 ? at : -1))],
    [60, (it, k) => note_where(it, k, (at, name, desc, end) => (at + 12 + padded(name) > end ? at : -1))],
    [61, (it, k) => note_where(it, k, (at, name, desc, end) => (at + 12 + padded(name) + padded(desc) > end ? at + 4 : -1))],
    [62, (it, k) => note_where(it, k, (at, name) => (name && it.bytes[at + 11 + name] ? at + 11 + name : -1))],
];

// ---- Dynamic arrays

// How many entries are before the first one of tag NULL; -1 where there is no such entry.
function before_null(tables, index) {
    const at = entry_where(tables, index, 0, (entry) => tables.long(entry) === 0n);
    return at < 0 ? -1 : (at - tables.start(index)) / 16;
}

const DYNAMIC_RULES = [
    [63, (it, k) => (before_null(it, k) < 0 ? it.field(k, "sh_size") : -1)],
    [64, (it, k) => {
        const strings = BigInt(it.sections[it.sections[k].sh_link].sh_size);
        const names_a_string = (at) => STRING_TAGS.some((tag) => it.long(at) === BigInt(tag));
        return entry_where(it, k, 8, (at) => names_a_string(at) && it.long(at + 8) >= strings, 0, before_null(it, k));
    }],
];

// ---- Hash tables

// Where the buckets and the chain words are, and how many of each there are.
function hash_parts(tables, index) {
    const start = tables.start(index);
    const [buckets, chains] = [tables.word(start), tables.word(start + 4)];
    return { buckets, chains, first: start + 8, chain: start + 8 + 4 * buckets };
}

function wrong_hash_size(tables, index) {
    const { sh_size } = tables.sections[index];
    if (sh_size < 8) return tables.field(index, "sh_size");
    const { buckets, chains } = hash_parts(tables, index);
    return sh_size === 4 * (2 + buckets + chains) ? -1 : tables.field(index, "sh_size");
}

function wrong_hash_count(tables, index) {
    const { buckets, chains } = hash_parts(tables, index);
    if (!buckets) return tables.start(index);
    return chains !== tables.count(tables.sections[index].sh_link) ? tables.start(index) + 4 : -1;
}

// Marks each symbol by the first bucket on whose chain it is. If a chain comes back to its own symbols, its bucket's word is reported.
// Chains may share a tail, which leads to an end or not, whatever chain it was reached by.
function endless_chain(tables, index) {
    const { buckets, chains, first, chain } = hash_parts(tables, index);
    const ends = new Uint8Array(chains);
    for (let k = 0; k < buckets; k++) {
        const path = [];
        let symbol = tables.word(first + 4 * k);
        while (symbol && !ends[symbol]) {
            ends[symbol] = 1;
            path.push(symbol);
            symbol = tables.word(chain + 4 * symbol);
        }
        // 1 is on this path, 2 leads to an end.
        if (symbol && ends[symbol] === 1) return first + 4 * k;
        for (const it of path) ends[it] = 2;
    }
    return -1;
}

// The chain words lead from each symbol to the next one, and at last to 0: together they are a tree with the root 0. A symbol is on the chain
// of a bucket where the bucket's word is below it in this tree. Each symbol has a number when the walk enters it and one when it leaves it.
function walked(tables, chains, chain) {
    const [child, sibling, enter, leave] = Array.from({ length: 4 }, () => new Uint32Array(chains));
    for (let k = 1; k < chains; k++) {
        const parent = tables.word(chain + 4 * k);
        [sibling[k], child[parent]] = [child[parent], k];
    }
    let [at, time] = [child[0], 1];
    while (at) {
        enter[at] = time++;
        if (child[at]) {
            at = child[at];
            continue;
        }
        leave[at] = time;
        while (at && !sibling[at]) {
            at = tables.word(chain + 4 * at);
            leave[at] = time;
        }
        at = sibling[at];
    }
    return { enter, leave };
}

function symbol_off_chain(tables, index) {
    const { buckets, chains, first, chain } = hash_parts(tables, index);
    const { enter, leave } = walked(tables, chains, chain);
    const symbols = tables.sections[index].sh_link;
    for (let k = 1; k < chains; k++) {
        const hash = known_hash(tables, tables.sections[symbols].sh_link, tables.word(tables.start(symbols) + 24 * k));
        const head = enter[tables.word(first + 4 * (hash % buckets))];
        if (!enter[k] || head < enter[k] || head >= leave[k]) return chain + 4 * k;
    }
    return -1;
}

function known_hash(tables, names, offset) {
    if (!tables.hashes.has(names)) tables.hashes.set(names, new Map());
    const own = tables.hashes.get(names);
    const [known, before] = [own.get(offset), tables.spent];
    const hash = known ?? hash_of(tables, names, offset);
    if (tables.spent > before + MOST_SHORT) own.set(offset, hash);
    return hash;
}

// The hash of a name (System V ABI, chapter 5).
function hash_of(tables, names, offset) {
    const end = tables.end(names);
    let hash = 0;
    let at = tables.start(names) + offset;
    for (; at < end && tables.bytes[at]; at++) {
        hash = ((hash << 4) + tables.bytes[at]) >>> 0;
        const top = hash & 0xf0000000;
        hash = (hash ^ (top >>> 24)) & ~top;
    }
    tables.spent += at - tables.start(names) - offset;
    if (tables.spent > MOST_HASHED) throw new Error("the names of its symbols are too long together");
    return hash >>> 0;
}

function hash_word_past_end(tables, index) {
    const { chains, first } = hash_parts(tables, index);
    for (let at = first; at < tables.end(index); at += 4) if (tables.word(at) >= chains) return at;
    return -1;
}

const HASH_RULES = [[65, wrong_hash_size], [66, wrong_hash_count], [67, hash_word_past_end], [68, endless_chain], [69, symbol_off_chain]];
const TABLE_RULES = { 2: SYMBOL_RULES, 11: SYMBOL_RULES, 4: RELOCATION_RULES, 9: RELOCATION_RULES, 17: GROUP_RULES, 7: NOTE_RULES, 6: DYNAMIC_RULES,
    5: HASH_RULES };
