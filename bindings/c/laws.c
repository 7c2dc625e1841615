/*
 * laws COUNT SEED FILE..: changes bytes of each file, COUNT times in all, and looks whether what the library says of each copy agrees with
 * itself, by laws that need no second opinion:
 *
 * - the verdict by a room is that without one;
 * - of a file that is refused `show` says just that line, and `rewrite` and the verdicts give the same refusal;
 * - the verdicts on tables are the lines of `show`, and those on an object and a link are what `rewrite` and `link` end with;
 * - the parts of one that is accepted hold each byte once, in order, and the parts that are sections' are as long as these say;
 * - what `rewrite` writes is accepted, and rewritten gives itself; a name that a hash table finds is that of the symbol found;
 * - the words of groups and hash tables are those of the lines of `show`, and come many at once as one by one;
 * - as many notes are read as are counted, and each has its bytes; a section of a name has it, and none before it has;
 * - a link of the copy answers with a room of no bytes how long it is, and what is linked is accepted;
 * - the record that a rule of the link is about is the one at its place, by its section, its entry and its name;
 * - `map` by relocation rules says first what it says without, and is refused as the link is, but for the entry symbol; each byte that it
 *   prints of a section is in the memory of what is linked, at the section's address.
 *
 * The last line is 'N passed, M failed'. The copies that a law fails for are written to failed-SEED-K.
 */
#include "elfmap.h"
#include <inttypes.h>
#include <stdio.h>
#include <stdlib.h>
#include <string.h>

enum { LONGEST = 1 << 16, ROOM = 1 << 22, MANY = 1 << 16 };

static uint8_t text[ROOM], again[ROOM], third[ROOM];
static struct elfmap_extent extents[MANY];
static struct elfmap_part parts[3 * MANY];
static struct elfmap_fault faults[MANY];
static uint64_t state;
static const char *broken;

static uint64_t chosen(uint64_t below) {
    state ^= state << 13;
    state ^= state >> 7;
    state ^= state << 17;
    return below == 0 ? 0 : state % below;
}

static bool holds(bool law, const char *words) {
    if (!law && broken == NULL)
        broken = words;
    return law;
}

/* A few bytes of the header and the tables, or of anything; or the end is cut off. */
static size_t change(uint8_t *bytes, size_t len) {
    static const uint8_t values[] = {0, 1, 2, 3, 4, 7, 8, 9, 11, 16, 24, 64, 127, 128, 255};
    uint64_t table = 0;
    for (int i = 0; i < 8 && len >= 64; i++)
        table |= (uint64_t) bytes[40 + (bytes[5] == 2 ? 7 - i : i)] << (8 * i);
    for (uint64_t k = 0, count = 1 + chosen(3); k < count && len > 0; k++) {
        uint64_t kind = chosen(10);
        size_t at = kind < 2 ? chosen(len < 64 ? len : 64) : kind < 7 && table < len ? table + chosen(len - table) : chosen(len);
        bytes[at] = chosen(2) ? values[chosen(sizeof values)] : (uint8_t) (bytes[at] + (chosen(2) ? 1 : 255));
    }
    return chosen(50) == 0 ? chosen(len) : len;
}

static void verdicts(const uint8_t *bytes, size_t len, bool kept, struct elfmap_fault fault) {
    struct elfmap_fault other = {0, 0};
    bool same = elfmap_verdict_in(bytes, len, extents, MANY, &other) == kept;
    holds(same && (kept || (other.rule == fault.rule && other.at == fault.at)), "the verdicts differ");
}

static void refused(const uint8_t *bytes, size_t len, struct elfmap_fault fault) {
    struct elfmap_outcome outcome;
    char line[64];
    int size = snprintf(line, sizeof line, "refused %u %" PRIu64 "\n", (unsigned) fault.rule, fault.at);
    uint32_t status = elfmap_show(bytes, len, text, ROOM, &outcome);
    holds(status == ELFMAP_REFUSED && outcome.rule == fault.rule && outcome.at == fault.at, "show refuses otherwise");
    holds(outcome.length == (uint64_t) size && memcmp(text, line, (size_t) size) == 0, "show says another line");
    status = elfmap_rewrite(bytes, len, text, ROOM, &outcome);
    holds(status == ELFMAP_REFUSED && outcome.rule == fault.rule && outcome.at == fault.at, "rewrite refuses otherwise");
    status = elfmap_table_verdicts(bytes, len, 0, faults, MANY, &outcome);
    holds(status == ELFMAP_REFUSED && outcome.rule == fault.rule && outcome.at == fault.at && outcome.length == 0,
          "the verdicts on the tables refuse otherwise");
    status = elfmap_object_verdict(bytes, len, &outcome);
    holds(status == ELFMAP_REFUSED && outcome.rule == fault.rule && outcome.at == fault.at && outcome.length == 0,
          "the verdict on the object refuses otherwise");
}

/* Where the first line of a text from `k` on begins that is about a table which breaks a rule; or the length of the text. */
static uint64_t refusal_from(const uint8_t *lines, uint64_t size, uint64_t k) {
    while (k < size && (size - k < 8 || memcmp(lines + k, "refused ", 8) != 0)) {
        while (lines[k] != '\n')
            k++;
        k++;
    }
    return k;
}

/* The slots of the verdicts on tables are the lines of `show` that begin with `refused`, and the others have no rule. */
static void table_verdicts(const struct elfmap_file *file, const uint8_t *bytes, size_t len) {
    struct elfmap_outcome outcome, shown;
    memset(faults, 0x5a, sizeof faults);
    if (!holds(elfmap_table_verdicts(bytes, len, 0, faults, MANY, &outcome) == ELFMAP_DONE, "the tables are refused with the file"))
        return;
    holds(outcome.length == file->sections, "there are other tables than sections");
    if (elfmap_show(bytes, len, text, ROOM, &shown) != ELFMAP_DONE)
        return;
    uint64_t k = refusal_from(text, shown.length, 0);
    for (uint64_t i = 0; i < outcome.length; i++) {
        char *rest = (char *) text + k + 8;
        if (k == shown.length || strtoull(rest, &rest, 10) != i) {
            holds(faults[i].rule == 0 && faults[i].at == 0, "a table has a verdict that show does not print");
            continue;
        }
        uint64_t rule = strtoull(rest, &rest, 10);
        uint64_t at = strtoull(rest, &rest, 10);
        holds(faults[i].rule == rule && faults[i].at == at, "a table has another verdict");
        k = refusal_from(text, shown.length, (uint64_t) (rest + 1 - (char *) text));
    }
    holds(k == shown.length, "show prints of a table that it is refused, and it has no verdict");
}

static void account(const struct elfmap_file *file, const uint8_t *bytes, size_t len) {
    struct elfmap_fault fault;
    struct elfmap_section section;
    uint64_t count = 0, at = 0;
    if (!holds(elfmap_parts(bytes, len, parts, 3 * MANY, &count, &fault), "there are no parts"))
        return;
    for (uint64_t k = 0; k < count; at += parts[k++].len) {
        holds(parts[k].start == at && parts[k].len > 0, "a part does not begin where the one before it ends");
        if (parts[k].owner != ELFMAP_GAP && parts[k].owner >= ELFMAP_CONTENTS)
            holds(elfmap_section(file, bytes, len, parts[k].owner - ELFMAP_CONTENTS, &section) && section.sh_size == parts[k].len,
                  "a part is not as long as its section");
    }
    holds(at == len, "the parts do not end where the file does");
}

static void tables(const struct elfmap_file *file, const uint8_t *bytes, size_t len) {
    struct elfmap_table table, symbols;
    struct elfmap_section section;
    struct elfmap_symbol symbol, other;
    uint32_t found;
    for (uint64_t i = 0; i < file->sections; i++) {
        if (!elfmap_table(file, bytes, len, i, &table) || !elfmap_section(file, bytes, len, i, &section))
            continue;
        for (uint64_t j = 0; j < table.entries && table.sh_type == 2; j++)
            if (elfmap_symbol(&table, bytes, len, j, &symbol))
                holds(symbol.name.start + symbol.name.len <= len, "a name lies outside");
        if (table.sh_type != 5 || !elfmap_table(file, bytes, len, section.sh_link, &symbols))
            continue;
        for (uint64_t j = 1; j < symbols.entries && j < 20; j++)
            if (elfmap_symbol(&symbols, bytes, len, j, &symbol) &&
                elfmap_find(&table, bytes, len, bytes + symbol.name.start, symbol.name.len, &found) &&
                elfmap_symbol(&symbols, bytes, len, found, &other))
                holds(other.name.len == symbol.name.len && memcmp(bytes + other.name.start, bytes + symbol.name.start, symbol.name.len) == 0,
                      "a symbol of another name is found");
    }
}

/* A line of `show` on a group or a hash table has the numbers of its words: of a group its name is between them. */
static void line_of_words(const struct elfmap_file *file, const uint8_t *bytes, size_t len, char *line) {
    bool is_group = memcmp(line, "group ", 6) == 0;
    struct elfmap_table table;
    uint64_t index = strtoull(line + (is_group ? 6 : 5), &line, 10), count = 0;
    uint32_t word;
    if (!holds(elfmap_table(file, bytes, len, index, &table), "a group or a hash table has no numbers"))
        return;
    for (; *line == ' '; count++) {
        uint64_t number = strtoull(line + 1, &line, 10);
        holds(elfmap_word(&table, bytes, len, count, &word) && word == number, "a word is not the one that show prints");
        if (is_group && count == 0)
            line += 1 + strcspn(line + 1, " \n");
    }
    holds(count == (is_group ? table.entries : 2) && count <= table.entries, "there are other words than show prints");
}

/* The lines of `show` on tables of words; and their words at once. */
static void words(const struct elfmap_file *file, const uint8_t *bytes, size_t len) {
    struct elfmap_outcome outcome;
    struct elfmap_table table;
    uint32_t block[7], word;
    if (elfmap_show(bytes, len, text, ROOM - 1, &outcome) == ELFMAP_DONE) {
        text[outcome.length] = 0;
        for (char *line = (char *) text; *line; line = strchr(line, '\n') + 1)
            if (memcmp(line, "group ", 6) == 0 || memcmp(line, "hash ", 5) == 0)
                line_of_words(file, bytes, len, line);
    }
    for (uint64_t i = 0; i < file->sections; i++) {
        if (!elfmap_table(file, bytes, len, i, &table) || !elfmap_word(&table, bytes, len, 0, &word))
            continue;
        uint64_t j = 0, count = 1;
        for (; count; j += count) {
            count = elfmap_words(&table, bytes, len, j, block, 7);
            for (uint64_t k = 0; k < count; k++)
                holds(elfmap_word(&table, bytes, len, j + k, &word) && word == block[k], "words at once are others");
        }
        holds(j == table.entries, "there are not as many words as are counted");
    }
}

/* The notes that are counted are read, one after the other, and each has its first and its last byte. */
static void notes_of(const struct elfmap_file *file, const uint8_t *bytes, size_t len, uint64_t section) {
    struct elfmap_table table;
    struct elfmap_note note, next;
    struct elfmap_place place;
    if (!elfmap_table(file, bytes, len, section, &table) || table.sh_type != 7)
        return;
    uint64_t at = 0, count = 0;
    for (; elfmap_note_at(&table, bytes, len, at, &note); at = note.next, count++) {
        const uint64_t ends[] = {at, note.next - 1};
        holds(count > 100 || (elfmap_note(&table, bytes, len, count, &next) && next.next == note.next),
              "a note of an index is another one");
        for (int k = 0; k < 2 && count <= 100; k++)
            holds(elfmap_place(file, bytes, len, table.content.start + ends[k], ELFMAP_CONTENTS + section, &place) && place.entry == count
                      && place.record.start == table.content.start + at && place.record.len == note.next - at,
                  "a byte of a note is in another one");
    }
    holds(count == table.entries && !elfmap_note(&table, bytes, len, count, &next), "there are not as many notes as are counted");
    if (at < table.content.len)
        holds(!elfmap_place(file, bytes, len, table.content.start + at, ELFMAP_CONTENTS + section, &place),
              "a byte of a note that is cut has a place");
}

/* A section of the name of each section is the first one that has it. */
static void names(const struct elfmap_file *file, const uint8_t *bytes, size_t len) {
    struct elfmap_extent name, other;
    for (uint64_t i = 0; i < file->sections && i < 100; i++) {
        uint64_t first = file->sections;
        if (!holds(elfmap_name(file, bytes, len, i, &name), "a section has no name"))
            return;
        holds(elfmap_section_named(file, bytes, len, bytes + name.start, name.len, &first) && first <= i,
              "a section is not found by its name");
        for (uint64_t k = 0; k <= first && first <= i; k++) {
            bool is_same = elfmap_name(file, bytes, len, k, &other) && other.len == name.len
                && memcmp(bytes + other.start, bytes + name.start, name.len) == 0;
            holds(is_same == (k == first), "another section is the first of a name");
        }
    }
}

static void rewritten(const uint8_t *bytes, size_t len) {
    struct elfmap_outcome outcome, second;
    struct elfmap_fault fault;
    uint32_t status = elfmap_rewrite(bytes, len, text, ROOM, &outcome);
    uint32_t wanted = elfmap_object_verdict(bytes, len, &second);
    holds(wanted == (status == ELFMAP_SMALL_ROOM ? ELFMAP_DONE : status) && second.length == outcome.length && second.rule == outcome.rule
              && second.at == outcome.at && second.file == 0 && second.index == 0,
          "the verdict on the object is another");
    if (status != ELFMAP_DONE) {
        /* An alignment may make the canonical layout long. */
        bool is_long = status == ELFMAP_TOO_LONG || (status == ELFMAP_SMALL_ROOM && outcome.length > ROOM);
        holds(is_long || (status == ELFMAP_REFUSED && outcome.rule >= 40), "an accepted file is refused by a rule of images");
        return;
    }
    holds(elfmap_verdict(text, outcome.length, &fault), "what is written is refused");
    status = elfmap_rewrite(text, outcome.length, again, ROOM, &second);
    holds(status == ELFMAP_DONE && second.length == outcome.length && memcmp(text, again, outcome.length) == 0, "what is written is written otherwise");
}

/* A line of the map of one file: of a member its address is kept, and of relocated bytes each is sought in memory. */
static void line_of_map(const struct elfmap_file *file, const uint8_t *linked, size_t len, const char *line) {
    static uint64_t addresses[MANY];
    char *rest;
    if (memcmp(line, "member ", 7) == 0) {
        uint64_t address = strtoull(line + 7, &rest, 16);
        strtoull(rest, &rest, 16);
        strtoull(rest, &rest, 10);
        addresses[strtoull(rest, &rest, 10) % MANY] = address;
    } else if (memcmp(line, "bytes 0 ", 8) == 0) {
        uint64_t address = addresses[strtoull(line + 8, &rest, 10) % MANY];
        for (const char *digits = rest + 1; digits[0] > '-'; digits += 2, address++) {
            char number[] = {digits[0], digits[1], 0};
            uint8_t byte;
            if (!holds(elfmap_load(file, linked, len, address, &byte) && byte == strtoul(number, NULL, 16), "memory has other bytes than the map"))
                return;
        }
    }
}

static void mapped(const uint8_t *bytes, size_t len, const uint8_t *rules, size_t rules_len, uint32_t link, struct elfmap_outcome other) {
    struct elfmap_bytes files[] = {{bytes, len}};
    struct elfmap_options options = {0x400000, 0x1000, 0};
    struct elfmap_outcome plain, outcome;
    struct elfmap_file file;
    uint32_t status = elfmap_map(files, 1, &options, rules, 0, third, ROOM, &plain);
    options.uses_rules = 1;
    uint32_t ruled = elfmap_map(files, 1, &options, rules, rules_len, again, ROOM, &outcome);
    if (ruled == ELFMAP_DONE) {
        holds(status == ELFMAP_DONE && plain.length <= outcome.length && memcmp(third, again, plain.length) == 0, "rules change the map");
        holds(link == ELFMAP_DONE || link == ELFMAP_TOO_LONG || link == ELFMAP_SMALL_ROOM || (link == ELFMAP_NOT_LINKED && other.rule == 10),
              "what is mapped is not linked");
    } else {
        bool same = ruled == link && outcome.rule == other.rule && outcome.index == other.index && outcome.at == other.at;
        holds(same || ruled == ELFMAP_SMALL_ROOM || (link == ELFMAP_NOT_LINKED && other.rule == 10 && outcome.rule > 10),
              "map and link are refused otherwise");
    }
    if (ruled != ELFMAP_DONE || link != ELFMAP_DONE || !holds(elfmap_file(text, other.length, &file), "what is linked has no numbers"))
        return;
    for (uint64_t at = 0; at < outcome.length; at = (uint64_t) ((uint8_t *) memchr(again + at, '\n', outcome.length - at) - again) + 1)
        line_of_map(&file, text, other.length, (const char *) again + at);
}

/* The record that a rule of the link is about is the one that the accessors find at its place, and its name is that of its symbol. */
static void place_of_rule(const uint8_t *bytes, size_t len, struct elfmap_outcome at) {
    struct elfmap_bytes files[] = {{bytes, len}};
    struct elfmap_link_place place;
    struct elfmap_place found;
    struct elfmap_file file;
    struct elfmap_table table;
    struct elfmap_symbol symbol;
    bool is_of_section = at.rule >= 3 && at.rule <= 5, is_of_symbol = at.rule >= 6 && at.rule <= 9;
    uint64_t owner;
    if (!holds(elfmap_link_place(files, 1, at.rule, at.file, at.index, at.at, &place) == ELFMAP_DONE, "a rule is about nothing"))
        return;
    if (!is_of_section && !is_of_symbol && (at.rule < 12 || at.rule > 16)) {
        holds(place.record.len == 0 && place.name.len == 0, "a rule about no record has one");
        return;
    }
    if (!holds(elfmap_file(bytes, len, &file) && elfmap_owner(&file, bytes, len, place.record.start, 0, &owner)
                   && elfmap_place(&file, bytes, len, place.record.start, owner, &found),
               "a rule is about no record"))
        return;
    holds(found.record.start == place.record.start && found.record.len == place.record.len, "a rule is about a part of a record");
    holds(owner == (is_of_section ? ELFMAP_SECTION_HEADERS : ELFMAP_CONTENTS + place.section), "a rule is about another section");
    holds(found.entry == (is_of_section ? place.section : place.entry), "a rule is about another entry");
    if (is_of_symbol)
        holds(elfmap_table(&file, bytes, len, place.section, &table) && elfmap_symbol(&table, bytes, len, place.entry, &symbol)
                  && symbol.name.len == place.name.len && (symbol.name.len == 0 || symbol.name.start == place.name.start),
              "a rule is about another name");
    if (at.rule == 8)
        holds(place.first_file == 0 && place.first_index < at.index, "the first definition is not before the second");
}

static void linked(const uint8_t *bytes, size_t len) {
    struct elfmap_bytes files[] = {{bytes, len}};
    struct elfmap_options options = {0x400000, 0x1000, 1};
    static const uint8_t rules[] = "1 abs 8 wrap\n2 pc 4 signed\n4 pc 4 signed\n10 abs 4 unsigned\n11 abs 4 signed\n";
    struct elfmap_outcome outcome, second;
    struct elfmap_fault fault;
    const uint8_t *entry = (const uint8_t *) "answer";
    uint32_t status = elfmap_link(files, 1, &options, entry, 6, rules, sizeof rules - 1, text, ROOM, &outcome);
    uint32_t wanted = elfmap_link(files, 1, &options, entry, 6, rules, sizeof rules - 1, again, 0, &second);
    holds(wanted == (outcome.length > 0 ? ELFMAP_SMALL_ROOM : status) && second.length == outcome.length, "another length is wanted");
    wanted = elfmap_link_verdict(files, 1, &options, entry, 6, rules, sizeof rules - 1, &second);
    holds(wanted == (status == ELFMAP_TOO_LONG ? ELFMAP_DONE : status) && second.length == 0 && second.rule == outcome.rule
              && second.file == outcome.file && second.index == outcome.index && second.at == outcome.at,
          "the verdict on the link is another");
    if (status == ELFMAP_DONE)
        holds(elfmap_verdict(text, outcome.length, &fault), "what is linked is refused");
    if (status == ELFMAP_NOT_LINKED)
        place_of_rule(bytes, len, outcome);
    mapped(bytes, len, rules, sizeof rules - 1, status, outcome);
}

static bool validate(const uint8_t *bytes, size_t len) {
    struct elfmap_fault fault = {0, 0};
    struct elfmap_file file;
    bool kept = elfmap_verdict(bytes, len, &fault);
    broken = NULL;
    verdicts(bytes, len, kept, fault);
    if (!kept) {
        refused(bytes, len, fault);
    } else if (holds(elfmap_file(bytes, len, &file), "there are no numbers")) {
        account(&file, bytes, len);
        tables(&file, bytes, len);
        words(&file, bytes, len);
        for (uint64_t i = 0; i < file.sections; i++)
            notes_of(&file, bytes, len, i);
        names(&file, bytes, len);
        table_verdicts(&file, bytes, len);
        rewritten(bytes, len);
        linked(bytes, len);
    }
    return broken == NULL;
}

static void keep(const uint8_t *bytes, size_t len, const char *seed, uint64_t k) {
    char name[96];
    snprintf(name, sizeof name, "failed-%.32s-%" PRIu64, seed, k);
    FILE *file = fopen(name, "wb");
    if (file != NULL) {
        fwrite(bytes, 1, len, file);
        fclose(file);
    }
    printf("laws: %s: %s\n", name, broken);
}

static size_t read_file(const char *path, uint8_t *bytes) {
    FILE *file = fopen(path, "rb");
    size_t len = file != NULL ? fread(bytes, 1, LONGEST, file) : 0;
    if (file != NULL)
        fclose(file);
    return len;
}

int main(int argc, char **argv) {
    static uint8_t whole[256][LONGEST], bytes[LONGEST];
    size_t lens[256];
    int files = argc - 3 < 256 ? argc - 3 : 256;
    uint64_t passed = 0, failed = 0, accepted = 0;
    struct elfmap_fault fault;
    if (files < 1)
        return 2;
    state = strtoull(argv[2], NULL, 10) * 2 + 1;
    for (int i = 0; i < files; i++)
        lens[i] = read_file(argv[3 + i], whole[i]);
    for (uint64_t k = 0, count = strtoull(argv[1], NULL, 10); k < count; k++) {
        int i = (int) chosen((uint64_t) files);
        memcpy(bytes, whole[i], lens[i]);
        size_t len = change(bytes, lens[i]);
        accepted += elfmap_verdict(bytes, len, &fault);
        if (validate(bytes, len)) {
            passed++;
        } else if (failed++ < 10) {
            keep(bytes, len, argv[2], failed);
        }
    }
    printf("%" PRIu64 " of them are accepted\n%" PRIu64 " passed, %" PRIu64 " failed\n", accepted, passed, failed);
    return failed != 0;
}
