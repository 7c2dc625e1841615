/* Tests of the calls that return many entries at once: a part of test.c, whose files it uses. */
#ifndef BULK_H
#define BULK_H

/* So many slots has each buffer, of which the first ones are lent. The others, and those that are not filled in, stay as they were. */
enum { SLOTS = 12, UNTOUCHED = 0x5a };

static bool is_untouched(const void *slots, size_t size) {
    const uint8_t *bytes = slots;
    for (size_t k = 0; k < size; k++)
        if (bytes[k] != UNTOUCHED)
            return false;
    return true;
}

/* How many of `there` entries lie from `first` on and fit. */
static uint64_t filled(uint64_t there, uint64_t first, size_t count) {
    uint64_t left = first < there ? there - first : 0;
    return left < count ? left : count;
}

static void check_many_sections(bool is_big) {
    uint8_t made[TABLES_SIZE];
    struct elfmap_file file;
    struct elfmap_section buffer[SLOTS], one;
    bool is_right = true;
    make_tables(made, is_big);
    struct guarded it = guarded_bytes(made, TABLES_SIZE, true);
    check(elfmap_file(it.bytes, it.len, &file) && file.sections == TABLES, "there are ten section headers");
    for (uint64_t first = 0; first <= TABLES + 1; first++) {
        for (size_t count = 0; count < SLOTS; count++) {
            memset(buffer, UNTOUCHED, sizeof buffer);
            uint64_t done = elfmap_sections(&file, it.bytes, it.len, first, buffer, count);
            is_right = is_right && done == filled(TABLES, first, count) && is_untouched(buffer + done, sizeof buffer - done * sizeof one);
            for (uint64_t k = 0; is_right && k < done; k++)
                is_right = elfmap_section(&file, it.bytes, it.len, first + k, &one) && memcmp(&one, buffer + k, sizeof one) == 0;
        }
    }
    check(is_right, "section headers come together as they come one by one");
    check(elfmap_sections(&file, it.bytes, it.len, 4, buffer, 2) == 2 && buffer[0].sh_type == RELA && buffer[1].sh_type == REL
              && buffer[1].sh_offset == REL_AT, "they are the right ones");
    check(elfmap_sections(&file, it.bytes, it.len - 1, 8, buffer, SLOTS) == 1, "one that is cut is not there");
    check(elfmap_sections(&file, it.bytes, it.len, UINT64_MAX, buffer, SLOTS) == 0, "nor is one at the last index");
    give_back(it);
}

static void check_many_symbols(const struct elfmap_table *table, struct guarded it) {
    struct elfmap_symbol buffer[SLOTS];
    bool is_right = true;
    for (uint64_t first = 0; first <= 4; first++) {
        for (size_t count = 0; count < 5; count++) {
            memset(buffer, UNTOUCHED, sizeof buffer);
            uint64_t done = elfmap_symbols(table, it.bytes, it.len, first, buffer, count);
            is_right = is_right && done == filled(3, first, count) && is_untouched(buffer + done, sizeof buffer - done * sizeof *buffer);
        }
    }
    check(is_right, "as many symbols come as there are and fit");
    check(elfmap_symbols(table, it.bytes, it.len, 0, buffer, SLOTS) == 3 && buffer[0].st_value == 0 && is_place(buffer[0].name, 0, 0)
              && buffer[1].st_value == 5 && is_place(buffer[1].name, NAMES_AT + 1, 3) && buffer[1].st_info == 0x12
              && buffer[2].st_size == 7 && is_place(buffer[2].name, NAMES_AT + 5, 6) && buffer[2].section == 70000, "they are right");
    check(elfmap_symbols(table, it.bytes, it.len, UINT64_MAX, buffer, SLOTS) == 0, "none is at the last index");
    struct elfmap_table nameless = *table, cut = *table;
    nameless.strings.len = 0;
    check(elfmap_symbols(&nameless, it.bytes, it.len, 1, buffer, SLOTS) == 2 && is_place(buffer[0].name, 0, 0) && buffer[0].st_name == 1
              && buffer[1].st_name == 5 && buffer[1].section == 70000, "without strings they have no names");
    cut.linked.len = 8;
    check(elfmap_symbols(&cut, it.bytes, it.len, 0, buffer, SLOTS) == 2, "a symbol whose word is missing ends them");
    cut.content.len = 3 * 24 - 1;
    check(elfmap_symbols(&cut, it.bytes, it.len, 1, buffer, SLOTS) == 1, "one that is cut is not there");
}

static void check_many_others(const struct elfmap_file *file, struct guarded it) {
    struct elfmap_relocation relocations[2];
    struct elfmap_dynamic entries[3];
    struct elfmap_table table;
    memset(relocations, UNTOUCHED, sizeof relocations);
    memset(entries, UNTOUCHED, sizeof entries);
    check(elfmap_table(file, it.bytes, it.len, 4, &table) && elfmap_relocations(&table, it.bytes, it.len, 0, relocations, 2) == 1
              && relocations->r_offset == 16 && relocations->r_addend == -4 && relocations->symbol == 2
              && is_untouched(relocations + 1, sizeof *relocations), "the relocations are right");
    check(elfmap_relocations(&table, it.bytes, it.len, 1, relocations, 2) == 0, "there is no other one");
    check(elfmap_table(file, it.bytes, it.len, 5, &table) && elfmap_relocations(&table, it.bytes, it.len, 0, relocations, 1) == 1
              && relocations->r_addend == 0 && relocations->relocation_type == 9, "so are those without addends");
    check(elfmap_table(file, it.bytes, it.len, 6, &table) && elfmap_dynamics(&table, it.bytes, it.len, 0, entries, 3) == 1
              && entries->d_tag == 1 && entries->d_un == 5 && is_untouched(entries + 1, 2 * sizeof *entries),
          "the entries of a dynamic array end before its first null entry");
    table.entries = 3;
    check(elfmap_dynamics(&table, it.bytes, it.len, 1, entries, 3) == 2 && entries[0].d_tag == 0 && entries[1].d_tag == 7,
          "by other numbers there are others");
}

/* A table has no entries of another kind. */
static void check_none_of_other_kinds(const struct elfmap_file *file, struct guarded it) {
    struct elfmap_table table;
    struct elfmap_symbol symbols[2];
    struct elfmap_relocation relocations[2];
    struct elfmap_dynamic entries[2];
    for (uint64_t i = 1; i < TABLES; i++) {
        if (!elfmap_table(file, it.bytes, it.len, i, &table) || table.entries == 0)
            continue;
        bool is_relocated = table.sh_type == RELA || table.sh_type == REL;
        check(!elfmap_symbols(&table, it.bytes, it.len, 0, symbols, 2) == (table.sh_type != SYMTAB), "only a symbol table has symbols");
        check(!elfmap_relocations(&table, it.bytes, it.len, 0, relocations, 2) != is_relocated,
              "only a relocation section has relocations");
        check(!elfmap_dynamics(&table, it.bytes, it.len, 0, entries, 2) == (table.sh_type != DYNAMIC),
              "only a dynamic array has its entries");
    }
}

static void check_many(bool is_big) {
    uint8_t made[TABLES_SIZE];
    struct elfmap_file file;
    struct elfmap_table table;
    check_many_sections(is_big);
    make_tables(made, is_big);
    struct guarded it = guarded_bytes(made, TABLES_SIZE, true);
    check(elfmap_file(it.bytes, it.len, &file) && elfmap_table(&file, it.bytes, it.len, 1, &table), "there is a symbol table");
    check_many_symbols(&table, it);
    check_many_others(&file, it);
    check_none_of_other_kinds(&file, it);
    give_back(it);
}

#endif
