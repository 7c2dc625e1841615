/* Tests of what a byte belongs to, and of the record and the field that it is in: a part of test.c, whose files it uses. */
#ifndef OWNERS_H
#define OWNERS_H

/* The owners of an offset are these and no others, up to the first GAP, in ascending order. */
static bool has_owners(const struct elfmap_file *file, struct guarded it, uint64_t offset, const uint64_t *owners) {
    uint64_t first = 0, owner = 77;
    for (; *owners != ELFMAP_GAP; owners++, first = owner + 1)
        if (!elfmap_owner(file, it.bytes, it.len, offset, first, &owner) || owner != *owners)
            return false;
    uint64_t before = owner;
    return !elfmap_owner(file, it.bytes, it.len, offset, first, &owner) && owner == before;
}

/* So it is at the first and the last offset of an extent. */
static void check_owned(const struct elfmap_file *file, struct guarded it, uint64_t start, uint64_t len, const uint64_t *owners,
                        const char *what) {
    check(has_owners(file, it, start, owners) && has_owners(file, it, start + len - 1, owners), what);
}

static void check_owners(bool is_big) {
    const uint64_t none[] = {ELFMAP_GAP}, header[] = {ELFMAP_HEADER, ELFMAP_GAP}, table[] = {ELFMAP_SECTION_HEADERS, ELFMAP_GAP};
    const uint64_t segments[] = {ELFMAP_PROGRAM_HEADERS, ELFMAP_GAP};
    const uint64_t data[] = {ELFMAP_CONTENTS + 1, ELFMAP_GAP}, names[] = {ELFMAP_CONTENTS + 2, ELFMAP_GAP};
    uint8_t made[SMALL_SIZE], loaded[LOADED_SIZE];
    struct elfmap_file file;
    make_small(made, is_big);
    struct guarded it = guarded_bytes(made, SMALL_SIZE, true);
    check(elfmap_file(it.bytes, it.len, &file), "there is a small file");
    check_owned(&file, it, 0, HEADER_SIZE, header, "the header has its bytes");
    check_owned(&file, it, 64, 4, data, "a content has its bytes");
    check_owned(&file, it, 68, sizeof small_names, names, "so has the next one");
    check_owned(&file, it, 68 + sizeof small_names, 20 - sizeof small_names, none, "a gap has no owner");
    check_owned(&file, it, 88, 3 * SECTION_SIZE, table, "the section header table has its bytes");
    check_owned(&file, it, SMALL_SIZE, 1, none, "after the end there is none");
    check_owned(&file, it, UINT64_MAX, 1, none, "nor at the last offset");
    give_back(it);
    make_loaded(loaded, is_big);
    it = guarded_bytes(loaded, LOADED_SIZE, true);
    check(elfmap_file(it.bytes, it.len, &file), "there is a small loadable file");
    check_owned(&file, it, HEADER_SIZE, 3 * SEGMENT_SIZE, segments, "the program header table has its bytes");
    check_owned(&file, it, LOADED_AT, 8, none, "no segment is an owner");
    give_back(it);
}

/* Of a file that breaks rules: a byte has each of its owners, and the bytes of an owner need not lie in the file. */
static void check_shared(bool is_big) {
    const uint64_t none[] = {ELFMAP_GAP}, all[] = {ELFMAP_HEADER, ELFMAP_CONTENTS + 1, ELFMAP_CONTENTS + 2, ELFMAP_GAP};
    const uint64_t both[] = {ELFMAP_SECTION_HEADERS, ELFMAP_CONTENTS + 1, ELFMAP_GAP}, past[] = {ELFMAP_CONTENTS + 1, ELFMAP_GAP};
    uint8_t made[SMALL_SIZE];
    struct elfmap_file file;
    make_small(made, is_big);
    put(made + 88 + SECTION_SIZE + 24, 8, 0, is_big);
    put(made + 88 + SECTION_SIZE + 32, 8, UINT64_MAX, is_big);
    put(made + 88 + 2 * SECTION_SIZE + 24, 8, 10, is_big);
    struct guarded it = guarded_bytes(made, SMALL_SIZE, true);
    check(elfmap_file(it.bytes, it.len, &file), "there is a file with shared bytes");
    check_owned(&file, it, 10, sizeof small_names, all, "a byte has each of its owners");
    check_owned(&file, it, 88, 3 * SECTION_SIZE, both, "one in a table too");
    check_owned(&file, it, SMALL_SIZE, UINT64_MAX - SMALL_SIZE, past, "and one after the end of the file");
    check_owned(&file, it, UINT64_MAX, 1, none, "after the last byte of a content there is none");
    give_back(it);
    put(made + 88 + SECTION_SIZE + 4, 4, 8, is_big);
    put(made + 88 + 2 * SECTION_SIZE + 4, 4, 0, is_big);
    it = guarded_bytes(made, SMALL_SIZE, true);
    check_owned(&file, it, 64, 24, none, "sections of type NOBITS and NULL have no bytes");
    give_back(it);
}

/* The record at an offset: each of its bytes is in the field that these widths say, one field after the other. */
static void check_record(const struct elfmap_file *file, struct guarded it, uint64_t owner, uint64_t entry, uint64_t start,
                         const char *widths, const char *what) {
    uint64_t size = 0, at = 0;
    bool is_right = true;
    for (const char *width = widths; *width; width++)
        size += (uint64_t) (*width - '0');
    for (const char *width = widths; *width; at += (uint64_t) (*width++ - '0')) {
        uint64_t own = (uint64_t) (*width - '0');
        for (uint64_t x = at; x < at + own; x++) {
            struct elfmap_place place;
            is_right = is_right && elfmap_place(file, it.bytes, it.len, start + x, owner, &place) && place.entry == entry
                && place.record.start == start && place.record.len == size && place.field.start == at && place.field.len == own;
        }
    }
    check(is_right, what);
}

/* By the figures of the gABI (chapter 4, ELF Header, Sections, Symbol Table, Relocation; chapter 5, Program Header, Note
 * Section, Dynamic Section). */
static void check_places(bool is_big) {
    uint8_t made[TABLES_SIZE], loaded[LOADED_SIZE];
    struct elfmap_file file;
    make_tables(made, is_big);
    struct guarded it = guarded_bytes(made, TABLES_SIZE, true);
    check(elfmap_file(it.bytes, it.len, &file), "there is a table of each kind");
    check_record(&file, it, ELFMAP_HEADER, 0, 0, "11111111111111112248884222222", "the header has its fields");
    check_record(&file, it, ELFMAP_SECTION_HEADERS, 7, TABLES_AT + 7 * SECTION_SIZE, "4488884488", "so has a section header");
    check_record(&file, it, ELFMAP_CONTENTS + 1, 2, SYMBOLS_AT + 48, "411288", "and a symbol");
    check_record(&file, it, ELFMAP_CONTENTS + 3, 1, WORDS_AT + 4, "4", "and a word of an index table");
    check_record(&file, it, ELFMAP_CONTENTS + 4, 0, RELA_AT, "888", "and a relocation");
    check_record(&file, it, ELFMAP_CONTENTS + 5, 0, REL_AT, "88", "and one without an addend");
    check_record(&file, it, ELFMAP_CONTENTS + 6, 2, DYNAMIC_AT + 32, "88", "and an entry of a dynamic array");
    check_record(&file, it, ELFMAP_CONTENTS + 7, 0, NOTES_AT, "44448", "and a note, whose name and descriptor are padded");
    check_record(&file, it, ELFMAP_CONTENTS + 7, 1, NOTES_AT + 24, "4444", "and one without a descriptor");
    check_record(&file, it, ELFMAP_CONTENTS + 8, 5, HASH_AT + 20, "4", "and a word of a hash table");
    give_back(it);
    put(made + TABLES_AT + 2 * SECTION_SIZE + 4, 4, 17, is_big);
    put(made + TABLES_AT + SECTION_SIZE + 4, 4, DYNSYM, is_big);
    it = guarded_bytes(made, TABLES_SIZE, true);
    check_record(&file, it, ELFMAP_CONTENTS + 2, 2, NAMES_AT + 8, "4", "and a word of a group");
    check_record(&file, it, ELFMAP_CONTENTS + 1, 0, SYMBOLS_AT, "411288", "and a symbol of a dynamic symbol table");
    give_back(it);
    make_loaded(loaded, is_big);
    it = guarded_bytes(loaded, LOADED_SIZE, true);
    check(elfmap_file(it.bytes, it.len, &file), "there is a small loadable file");
    check_record(&file, it, ELFMAP_PROGRAM_HEADERS, 2, HEADER_SIZE + 2 * SEGMENT_SIZE, "44888888", "and a program header");
    give_back(it);
}

/* An owner that has no records, or not the byte, has no place; and what was to be filled in stays as it was. */
static void check_no_places(void) {
    const struct {
        uint64_t offset, owner;
    } none[] = {{NAMES_AT, ELFMAP_CONTENTS + 2},      {NOTES_AT + 40, ELFMAP_CONTENTS + 7},  {SYMBOLS_AT - 1, ELFMAP_CONTENTS + 1},
                {NAMES_AT, ELFMAP_CONTENTS + 1},      {HEADER_SIZE, ELFMAP_HEADER},          {TABLES_AT - 1, ELFMAP_SECTION_HEADERS},
                {TABLES_SIZE, ELFMAP_SECTION_HEADERS}, {SYMBOLS_AT, ELFMAP_CONTENTS + TABLES}, {0, ELFMAP_PROGRAM_HEADERS},
                {SYMBOLS_AT, ELFMAP_GAP},             {SYMBOLS_AT, ELFMAP_CONTENTS + 9}};
    uint8_t bytes[TABLES_SIZE];
    struct elfmap_file file;
    struct elfmap_place place = {1, {2, 3}, {4, 5}};
    make_tables(bytes, false);
    check(elfmap_file(bytes, TABLES_SIZE, &file), "there is a table of each kind");
    for (size_t k = 0; k < sizeof none / sizeof *none; k++)
        check(!elfmap_place(&file, bytes, TABLES_SIZE, none[k].offset, none[k].owner, &place) && place.entry == 1
                  && is_place(place.record, 2, 3) && is_place(place.field, 4, 5), "there is no place, and it is unchanged");
}

#endif
