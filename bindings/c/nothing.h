/* Null pointers, whose length is 0, as lists of nothing: a part of test.c, whose files it uses. */
#ifndef NOTHING_H
#define NOTHING_H

/* Null in place of the bytes of a file. */
static void check_no_bytes(void) {
    struct elfmap_fault fault = {77, 88}, fault_in = {77, 88};
    struct elfmap_file file = {64, 64, 3, 3, 2, 1}, other = file;
    struct elfmap_header header;
    struct elfmap_section section;
    struct elfmap_segment segment;
    struct elfmap_extent name;
    struct elfmap_table table;
    struct elfmap_place place;
    uint64_t parts, owner = 77, index = 77;
    uint8_t byte;
    check(!elfmap_verdict(NULL, 0, &fault) && is_fault(fault, 2, 0), "null is a file of no bytes");
    check(!elfmap_verdict_in(NULL, 0, NULL, 0, &fault_in) && is_fault(fault_in, 2, 0), "also by a buffer that is null");
    check(!elfmap_parts(NULL, 0, NULL, 0, &parts, &fault) && is_fault(fault, 2, 0), "it has no parts");
    check(!elfmap_file(NULL, 0, &other) && !elfmap_header(NULL, 0, &header), "nor a header");
    check(!elfmap_section(&file, NULL, 0, 0, &section) && !elfmap_segment(&file, NULL, 0, 0, &segment)
              && !elfmap_name(&file, NULL, 0, 1, &name) && !elfmap_load(&file, NULL, 0, 0, &byte)
              && !elfmap_table(&file, NULL, 0, 1, &table) && elfmap_sections(&file, NULL, 0, 0, NULL, 0) == 0, "nor sections or segments");
    check(!elfmap_section_named(&file, NULL, 0, NULL, 0, &index) && index == 77, "nor one without a name");
    check(elfmap_owner(&file, NULL, 0, 0, 0, &owner) && owner == ELFMAP_HEADER && elfmap_place(&file, NULL, 0, 0, ELFMAP_HEADER, &place),
          "its owners need no bytes");
}

/* And of those of a table: no kind has entries. */
static void check_no_table_bytes(void) {
    const uint32_t kinds[] = {SYMTAB, RELA, REL, DYNAMIC, NOTE, HASH, GROUP, SYMTAB_SHNDX};
    const struct elfmap_extent part = {0, 48};
    struct elfmap_symbol symbol;
    struct elfmap_relocation relocation;
    struct elfmap_dynamic entry;
    struct elfmap_extent text;
    struct elfmap_note note;
    uint32_t word;
    for (size_t k = 0; k < sizeof kinds / sizeof *kinds; k++) {
        struct elfmap_table table = {part, part, part, 2, kinds[k], 1};
        check(!elfmap_symbol(&table, NULL, 0, 0, &symbol) && !elfmap_relocation(&table, NULL, 0, 0, &relocation)
                  && !elfmap_dynamic(&table, NULL, 0, 0, &entry) && !elfmap_string(&table, NULL, 0, 0, &text)
                  && !elfmap_note(&table, NULL, 0, 0, &note) && !elfmap_note_at(&table, NULL, 0, 0, &note)
                  && !elfmap_word(&table, NULL, 0, 0, &word) && !elfmap_find(&table, NULL, 0, NULL, 0, &word), "null has no entries");
        check(elfmap_symbols(&table, NULL, 0, 0, NULL, 0) == 0 && elfmap_relocations(&table, NULL, 0, 0, NULL, 0) == 0
                  && elfmap_dynamics(&table, NULL, 0, 0, NULL, 0) == 0 && elfmap_words(&table, NULL, 0, 0, NULL, 0) == 0, "nor many");
    }
}

/* And in place of a buffer or a name, beside bytes that are there. */
static void check_no_lists(void) {
    uint8_t bytes[TABLES_SIZE];
    struct elfmap_fault fault;
    struct elfmap_file file;
    struct elfmap_table table;
    uint64_t parts, index;
    uint32_t symbol;
    make_tables(bytes, false);
    check(!elfmap_verdict_in(bytes, TABLES_SIZE, NULL, 0, &fault) && is_fault(fault, ELFMAP_SHORT_ROOM, 3 + TABLES)
              && !elfmap_parts(bytes, TABLES_SIZE, NULL, 0, &parts, &fault) && is_fault(fault, ELFMAP_SHORT_ROOM, 3 * (3 + TABLES) + 1),
          "null is a buffer that is too small");
    check(elfmap_file(bytes, TABLES_SIZE, &file) && elfmap_sections(&file, bytes, TABLES_SIZE, 0, NULL, 0) == 0, "nothing is put into it");
    check(elfmap_section_named(&file, bytes, TABLES_SIZE, NULL, 0, &index) && index == 0, "null is a name of no bytes");
    for (uint64_t i = 1; i < TABLES; i++)
        if (elfmap_table(&file, bytes, TABLES_SIZE, i, &table))
            check(elfmap_symbols(&table, bytes, TABLES_SIZE, 0, NULL, 0) == 0
                      && elfmap_relocations(&table, bytes, TABLES_SIZE, 0, NULL, 0) == 0
                      && elfmap_dynamics(&table, bytes, TABLES_SIZE, 0, NULL, 0) == 0
                      && elfmap_words(&table, bytes, TABLES_SIZE, 0, NULL, 0) == 0
                      && !elfmap_find(&table, bytes, TABLES_SIZE, NULL, 0, &symbol), "no entry is put into it, and no symbol is found");
}

static void check_nothing(void) {
    check_no_bytes();
    check_no_table_bytes();
    check_no_lists();
}

#endif
