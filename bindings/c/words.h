/* Tests of the words of groups, index tables and hash tables: a part of test.c, whose files it uses. */
#ifndef WORDS_H
#define WORDS_H

/* The words of a table are these, one by one and many at once. */
static void check_words(const struct elfmap_table *table, struct guarded it, const uint32_t *words, uint64_t there, const char *what) {
    uint32_t buffer[SLOTS], word = 77;
    bool is_right = table->entries == there && !elfmap_word(table, it.bytes, it.len, there, &word)
        && !elfmap_word(table, it.bytes, it.len, UINT64_MAX, &word) && word == 77;
    for (uint64_t first = 0; first <= there + 1; first++) {
        for (size_t count = 0; count < SLOTS; count++) {
            memset(buffer, UNTOUCHED, sizeof buffer);
            uint64_t done = elfmap_words(table, it.bytes, it.len, first, buffer, count);
            is_right = is_right && done == filled(there, first, count) && is_untouched(buffer + done, sizeof buffer - done * sizeof word)
                && memcmp(buffer, words + first, done * sizeof word) == 0;
        }
        if (first < there)
            is_right = is_right && elfmap_word(table, it.bytes, it.len, first, &word) && word == words[first];
        word = 77;
    }
    check(is_right && elfmap_words(table, it.bytes, it.len, UINT64_MAX, buffer, SLOTS) == 0, what);
}

/* A group of two members where the names of symbols were, an index table, and a hash table. */
static void check_tables_of_words(bool is_big) {
    const uint32_t group[] = {1, 4, 70000}, indexes[] = {0, 0, 70000}, hash[] = {1, 3, 1, 0, 2, 0};
    uint8_t made[TABLES_SIZE];
    struct elfmap_file file;
    struct elfmap_table table;
    make_tables(made, is_big);
    put_words(made + NAMES_AT, group, 3, is_big);
    put_words(made + HASH_AT, hash, 6, is_big);
    put_linked(made, 2, GROUP, NAMES_AT, 12, 1, is_big);
    struct guarded it = guarded_bytes(made, TABLES_SIZE, true);
    check(elfmap_file(it.bytes, it.len, &file) && elfmap_table(&file, it.bytes, it.len, 2, &table), "there is a group");
    check(is_place(table.content, NAMES_AT, 12) && is_place(table.linked, 0, 0) && is_place(table.strings, 0, 0),
          "it is where its words are");
    check_words(&table, it, group, 3, "a group has its flags and its members");
    table.content.len = 11;
    table.entries = 2;
    check_words(&table, it, group, 2, "a word that is cut is not there");
    check(elfmap_table(&file, it.bytes, it.len, 3, &table) && is_place(table.content, WORDS_AT, 12), "there is an index table");
    check_words(&table, it, indexes, 3, "an index table has a word for each symbol");
    check(elfmap_table(&file, it.bytes, it.len, 8, &table), "there is a hash table");
    check_words(&table, it, hash, 6, "a hash table has its words");
    give_back(it);
    put_linked(made, 2, GROUP, NAMES_AT, 12, TABLES, is_big);
    put_linked(made, 3, SYMTAB_SHNDX, WORDS_AT, 12, TABLES, is_big);
    it = guarded_bytes(made, TABLES_SIZE, true);
    check(!elfmap_table(&file, it.bytes, it.len, 2, &table) && !elfmap_table(&file, it.bytes, it.len, 3, &table),
          "a group or an index table without its symbol table is none");
    give_back(it);
}

#endif
