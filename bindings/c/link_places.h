/*
 * Checks of elfmap_link_place, for engines.c, over its objects that stand here.
 */

/* The object of `make_object` with a section of one relocation, which refers to the symbol `start`. */
enum { ENTRY_AT = OBJECT_SIZE + SECTION_SIZE, ENTRY_SIZE = 24, RELATED_SIZE = ENTRY_AT + ENTRY_SIZE };

static void make_related(uint8_t *bytes) {
    make_object(bytes);
    memset(bytes + OBJECT_SIZE, 0, RELATED_SIZE - OBJECT_SIZE);
    put(bytes + 60, 2, 6);
    uint8_t *section = bytes + OBJECT_SIZE;
    make_section(section, 0, 4, 0x40, ENTRY_AT, ENTRY_SIZE);
    put(section + 40, 4, 2);
    put(section + 44, 4, 1);
    put(section + 48, 8, 8);
    put(section + 56, 8, ENTRY_SIZE);
    put(bytes + ENTRY_AT + 8, 8, (UINT64_C(1) << 32) + 2);
}

static bool is_link_place(struct elfmap_link_place a, struct elfmap_link_place b) {
    return a.section == b.section && a.entry == b.entry && a.record.start == b.record.start && a.record.len == b.record.len &&
           a.name.start == b.name.start && a.name.len == b.name.len && a.first_file == b.first_file && a.first_index == b.first_index;
}

/* The rule and the site are those of `at`. Each refusal of memory is said so, and leaves the place as it was. */
static void check_place(const struct elfmap_bytes *files, size_t count, struct elfmap_outcome at, struct elfmap_link_place wanted,
                        const char *what) {
    struct elfmap_link_place place;
    memset(&place, UNTOUCHED, sizeof place);
    uint32_t status = elfmap_link_place(files, count, at.rule, at.file, at.index, at.at, &place);
    check(status == ELFMAP_DONE && is_link_place(place, wanted), what);
    check(held == 0, "all memory is given back");
#ifndef OVER_MALLOC
    bool is_done = false;
    for (unsigned long k = 1; !is_done && failed < 100; k++) {
        refused = k;
        requests = 0;
        memset(&place, UNTOUCHED, sizeof place);
        status = elfmap_link_place(files, count, at.rule, at.file, at.index, at.at, &place);
        refused = 0;
        is_done = requests < k;
        if (status == ELFMAP_NO_MEMORY)
            check(!is_done && is_untouched((const uint8_t *) &place, sizeof place), "a refusal of memory leaves the place as it was");
        else
            check(status == ELFMAP_DONE && is_link_place(place, wanted), "or a call that asks again answers the same");
        check(held == 0, "all memory is given back");
    }
#endif
}

static void check_link_places(void) {
    static const struct elfmap_link_place nowhere = {0, 0, {0, 0}, {0, 0}, 0, 0};
    const struct elfmap_link_place start = {2, 1, {SYMBOLS_AT + SYMBOL_SIZE, SYMBOL_SIZE}, {STRINGS_AT + 1, 5}, 0, 0};
    const struct elfmap_link_place text = {1, 0, {TABLE_AT + SECTION_SIZE, SECTION_SIZE}, {0, 0}, 0, 0};
    const struct elfmap_link_place entry = {5, 0, {ENTRY_AT, ENTRY_SIZE}, {STRINGS_AT + 1, 5}, 0, 0};
    uint8_t bytes[RELATED_SIZE], other[RELATED_SIZE];
    make_related(bytes);
    memcpy(other, bytes, RELATED_SIZE);
    struct elfmap_bytes files[3] = {{bytes, RELATED_SIZE}, {other, RELATED_SIZE}, {bytes, RELATED_SIZE}};
    check_place(files, 2, numbers_of(1, 8, 0, 0), start, "the second definition is a symbol, and the first one is in file 0");
    put(bytes + SYMBOLS_AT + SYMBOL_SIZE + 6, 2, 0);
    struct elfmap_link_place third = start;
    third.first_file = 1;
    check_place(files, 3, numbers_of(2, 8, 0, 0), third, "a symbol that is undefined is no definition");
    put(bytes + SYMBOLS_AT + SYMBOL_SIZE + 6, 2, 1);
    check_place(files, 2, numbers_of(0, 9, 0, 0), start, "an undefined name is that of a symbol");
    check_place(files, 2, numbers_of(0, 6, 1, 0), nowhere, "after the last symbol there is none");
    check_place(files, 2, numbers_of(0, 6, UINT64_MAX, 0), nowhere, "nor at the largest position");
    check_place(files, 2, numbers_of(1, 3, 0, 0), text, "the first section of the object is that of the text");
    const struct elfmap_link_place related = {5, 0, {OBJECT_SIZE, SECTION_SIZE}, {0, 0}, 0, 0};
    check_place(files, 2, numbers_of(1, 5, 1, 0), related, "the second one comes after what the object leaves out");
    check_place(files, 2, numbers_of(1, 4, 2, 0), nowhere, "and there is no third");
    check_place(files, 2, numbers_of(1, 12, 1, 0), entry, "a relocation has the name of its symbol");
    check_place(files, 2, numbers_of(1, 16, 1, 1), nowhere, "after the last relocation there is none");
    put(other + ENTRY_AT + 8, 8, 2);
    struct elfmap_link_place nameless = entry;
    nameless.name = nowhere.name;
    check_place(files, 2, numbers_of(1, 13, 1, 0), nameless, "one that refers to no symbol has no name");
    const uint16_t others[] = {0, 1, 2, 10, 11, 17, UINT16_MAX};
    for (size_t k = 0; k < sizeof others / sizeof others[0]; k++)
        check_place(files, 2, numbers_of(0, others[k], 0, 0), nowhere, "other rules are about no record");
    check_place(files, 2, numbers_of(2, 9, 0, 0), nowhere, "in a file that is not there is none");
    check_place(NULL, 0, numbers_of(0, 8, 0, 0), nowhere, "nor in no files");
    files[1].len = 63;
    check_place(files, 2, numbers_of(1, 8, 0, 0), nowhere, "nor in a file that is refused");
    check_place(files, 2, numbers_of(0, 8, 0, 0), start, "the others have their records, and no definition is sought");
}
