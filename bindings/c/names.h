/* Tests of finding a section by its name: a part of test.c, whose files it uses. */
#ifndef NAMES_H
#define NAMES_H

enum { NONE = 77 };

static bool names_section(const struct elfmap_file *file, struct guarded it, const char *name, size_t name_len, uint64_t wanted) {
    struct guarded text = guarded_bytes((const uint8_t *) name, name_len, true);
    uint64_t index = NONE;
    bool is_found = elfmap_section_named(file, it.bytes, it.len, text.bytes, text.len, &index);
    give_back(text);
    return is_found == (wanted != NONE) && index == wanted;
}

static void check_names(bool is_big) {
    uint8_t made[SMALL_SIZE];
    struct elfmap_file file;
    make_small(made, is_big);
    struct guarded it = guarded_bytes(made, SMALL_SIZE, true);
    check(elfmap_file(it.bytes, it.len, &file), "there is a small file");
    check(names_section(&file, it, ".data", 5, 1) && names_section(&file, it, ".shstrtab", 9, 2), "each section is found by its name");
    check(names_section(&file, it, "", 0, 0), "the first section without a name is section 0");
    check(names_section(&file, it, ".dat", 4, NONE) && names_section(&file, it, ".datas", 6, NONE)
              && names_section(&file, it, ".data", 6, NONE) && names_section(&file, it, "data", 4, NONE)
              && names_section(&file, it, "\0.data", 6, NONE) && names_section(&file, it, ".symtab", 7, NONE),
          "no other name is found");
    give_back(it);
    put(made + 88 + 2 * SECTION_SIZE, 4, 1, is_big);
    it = guarded_bytes(made, SMALL_SIZE, true);
    check(names_section(&file, it, ".data", 5, 1) && names_section(&file, it, ".shstrtab", 9, NONE), "of two sections the first is found");
    give_back(it);
    put(made + 88 + SECTION_SIZE + 4, 4, 0, is_big);
    it = guarded_bytes(made, SMALL_SIZE, true);
    check(names_section(&file, it, ".data", 5, 2), "one of type NULL has no name");
    file.name_table = 0;
    check(names_section(&file, it, ".data", 5, NONE) && names_section(&file, it, "", 0, 0), "without a name table none has");
    file.name_table = 3;
    check(names_section(&file, it, ".data", 5, NONE) && names_section(&file, it, "", 0, 0), "a name table that is not there names none");
    give_back(it);
}

#endif
