/*
 * Dumps what the library says of a file, line by line, for tools/test c-library to compare with the reference: a part of test.c, whose
 * functions and section types it uses.
 */
#ifndef DUMP_H
#define DUMP_H

static uint8_t *read_whole(const char *path, size_t *len) {
    FILE *file = fopen(path, "rb");
    if (!file || fseek(file, 0, SEEK_END) != 0)
        stop(path);
    long size = ftell(file);
    uint8_t *bytes = malloc(size > 0 ? (size_t) size : 1);
    rewind(file);
    if (size < 0 || !bytes || fread(bytes, 1, (size_t) size, file) != (size_t) size)
        stop(path);
    fclose(file);
    *len = (size_t) size;
    return bytes;
}

static void dump_bytes(const uint8_t *bytes, struct elfmap_extent place) {
    for (uint64_t k = 0; k < place.len; k++)
        printf("%02x", (unsigned) bytes[place.start + k]);
}

static void dump_verdict(const char *how, bool is_kept, struct elfmap_fault fault) {
    if (is_kept)
        printf("%s kept\n", how);
    else
        printf("%s refused %u %" PRIu64 "\n", how, (unsigned) fault.rule, fault.at);
}

/* The verdict, and that by rooms: an empty one, one that is short by an extent, and one that is as large as is wanted. */
static bool dump_verdicts(const uint8_t *bytes, size_t len) {
    struct elfmap_fault fault = {0, 0}, short_fault = {0, 0}, fault_in = {0, 0};
    struct elfmap_extent none;
    bool is_kept = elfmap_verdict(bytes, len, &fault);
    dump_verdict("verdict", is_kept, fault);
    dump_verdict("in none", elfmap_verdict_in(bytes, len, &none, 0, &short_fault), short_fault);
    if (short_fault.rule == ELFMAP_SHORT_ROOM) {
        size_t wanted = (size_t) short_fault.at;
        struct elfmap_extent *room = malloc(wanted * sizeof *room);
        if (!room)
            stop("malloc");
        dump_verdict("in less", elfmap_verdict_in(bytes, len, room, wanted - 1, &short_fault), short_fault);
        dump_verdict("in enough", elfmap_verdict_in(bytes, len, room, wanted, &fault_in), fault_in);
        free(room);
    }
    return is_kept;
}

/* Whether a part belongs to its owner alone, at its first byte and at its last one: a gap to none. */
static bool is_owned(const struct elfmap_file *file, const uint8_t *bytes, size_t len, struct elfmap_part part) {
    const uint64_t ends[] = {part.start, part.start + part.len - 1};
    bool is_right = true;
    for (int k = 0; k < 2; k++) {
        uint64_t owner = ELFMAP_GAP;
        bool is_found = elfmap_owner(file, bytes, len, ends[k], 0, &owner);
        is_right = is_right && owner == part.owner && (!is_found || !elfmap_owner(file, bytes, len, ends[k], owner + 1, &owner));
    }
    return is_right;
}

/* The parts, and the verdict by rooms for them: an empty one, one that is short by a part, and one that is as large as is wanted. */
static void dump_parts(const uint8_t *bytes, size_t len) {
    struct elfmap_fault fault = {0, 0};
    struct elfmap_part none;
    uint64_t parts = 0;
    dump_verdict("parts in none", elfmap_parts(bytes, len, &none, 0, &parts, &fault), fault);
    if (fault.rule != ELFMAP_SHORT_ROOM)
        return;
    size_t wanted = (size_t) fault.at;
    struct elfmap_part *room = malloc(wanted * sizeof *room);
    if (!room)
        stop("malloc");
    dump_verdict("parts in less", elfmap_parts(bytes, len, room, wanted - 1, &parts, &fault), fault);
    dump_verdict("parts in enough", elfmap_parts(bytes, len, room, wanted, &parts, &fault), fault);
    struct elfmap_file file;
    bool has_numbers = elfmap_file(bytes, len, &file);
    for (uint64_t k = 0; k < parts; k++) {
        printf("part %" PRIu64 " %" PRIu64 " %" PRIu64, room[k].start, room[k].len, room[k].owner);
        printf(has_numbers && is_owned(&file, bytes, len, room[k]) ? "\n" : " by its owner it is another one\n");
    }
    free(room);
}

static void dump_header(const struct elfmap_file *file, const uint8_t *bytes, size_t len) {
    struct elfmap_header h;
    printf("file %" PRIu64 " %" PRIu64 " %" PRIu64 " %" PRIu64 " %" PRIu64 " %u\n", file->e_phoff, file->e_shoff, file->sections,
           file->segments, file->name_table, (unsigned) file->ei_data);
    if (!elfmap_header(bytes, len, &h))
        return;
    printf("header ");
    for (int i = 0; i < 16; i++)
        printf("%02x", (unsigned) h.e_ident[i]);
    printf(" %u %u %" PRIu32 " %" PRIu64 " %" PRIu64 " %" PRIu64 " %" PRIu32 " %u %u %u %u %u %u\n", (unsigned) h.e_type,
           (unsigned) h.e_machine, h.e_version, h.e_entry, h.e_phoff, h.e_shoff, h.e_flags, (unsigned) h.e_ehsize,
           (unsigned) h.e_phentsize, (unsigned) h.e_phnum, (unsigned) h.e_shentsize, (unsigned) h.e_shnum, (unsigned) h.e_shstrndx);
}

/* So many entries are read at once in one of the two dumps of a file, and one by one in the other. */
enum { AT_ONCE = 3 };

static void dump_section(struct elfmap_section s) {
    printf("section %" PRIu32 " %" PRIu32 " %" PRIu64 " %" PRIu64 " %" PRIu64 " %" PRIu64 " %" PRIu32 " %" PRIu32 " %" PRIu64 " %" PRIu64
           " ", s.sh_name, s.sh_type, s.sh_flags, s.sh_addr, s.sh_offset, s.sh_size, s.sh_link, s.sh_info, s.sh_addralign, s.sh_entsize);
}

static void dump_sections(const struct elfmap_file *file, const uint8_t *bytes, size_t len, bool at_once) {
    struct elfmap_section block[AT_ONCE];
    struct elfmap_extent name;
    uint64_t count = 1;
    for (uint64_t i = 0; count; i += count) {
        count = at_once ? elfmap_sections(file, bytes, len, i, block, AT_ONCE) : elfmap_section(file, bytes, len, i, block);
        for (uint64_t k = 0; k < count; k++) {
            uint64_t first = UINT64_MAX;
            dump_section(block[k]);
            if (elfmap_name(file, bytes, len, i + k, &name)) {
                dump_bytes(bytes, name);
                elfmap_section_named(file, bytes, len, bytes + name.start, name.len, &first);
            }
            printf(" %" PRIu64 "\n", first);
        }
    }
}

static void dump_segments(const struct elfmap_file *file, const uint8_t *bytes, size_t len) {
    struct elfmap_segment p;
    for (uint64_t j = 0; elfmap_segment(file, bytes, len, j, &p); j++)
        printf("segment %" PRIu32 " %" PRIu32 " %" PRIu64 " %" PRIu64 " %" PRIu64 " %" PRIu64 " %" PRIu64 " %" PRIu64 "\n", p.p_type,
               p.p_flags, p.p_offset, p.p_vaddr, p.p_paddr, p.p_filesz, p.p_memsz, p.p_align);
}

/* What each loadable segment's first and last addresses are given, those of its bytes in the file, and the address after it. */
static void dump_loaded(const struct elfmap_file *file, const uint8_t *bytes, size_t len) {
    struct elfmap_segment p;
    for (uint64_t j = 0; elfmap_segment(file, bytes, len, j, &p); j++) {
        uint64_t addresses[] = {p.p_vaddr, p.p_vaddr + p.p_filesz - 1, p.p_vaddr + p.p_filesz, p.p_vaddr + p.p_memsz - 1,
                                p.p_vaddr + p.p_memsz};
        for (size_t k = 0; p.p_type == 1 && k < sizeof addresses / sizeof *addresses; k++) {
            uint8_t byte;
            if (elfmap_load(file, bytes, len, addresses[k], &byte))
                printf("load %" PRIu64 " %u\n", addresses[k], (unsigned) byte);
            else
                printf("load %" PRIu64 " none\n", addresses[k]);
        }
    }
}

static void dump_symbol(const uint8_t *bytes, struct elfmap_symbol s) {
    printf("symbol %" PRIu32 " %u %u %u %" PRIu64 " %" PRIu64 " %" PRIu32 " ", s.st_name, (unsigned) s.st_info, (unsigned) s.st_other,
           (unsigned) s.st_shndx, s.st_value, s.st_size, s.section);
    dump_bytes(bytes, s.name);
    printf("\n");
}

/* The symbols: one that is not there, as its word in the index table is missing, is passed over. */
static void dump_symbols(const struct elfmap_table *table, const uint8_t *bytes, size_t len, bool at_once) {
    struct elfmap_symbol block[AT_ONCE];
    uint64_t size = at_once ? AT_ONCE : 1, count;
    for (uint64_t j = 0; j < table->entries; j += count < size ? count + 1 : count) {
        count = at_once ? elfmap_symbols(table, bytes, len, j, block, size) : elfmap_symbol(table, bytes, len, j, block);
        for (uint64_t k = 0; k < count; k++)
            dump_symbol(bytes, block[k]);
    }
}

static void dump_relocations(const struct elfmap_table *table, const uint8_t *bytes, size_t len, bool at_once) {
    struct elfmap_relocation block[AT_ONCE], *r;
    uint64_t count = 1;
    for (uint64_t j = 0; count; j += count) {
        count = at_once ? elfmap_relocations(table, bytes, len, j, block, AT_ONCE) : elfmap_relocation(table, bytes, len, j, block);
        for (r = block; r < block + count; r++)
            printf("relocation %" PRIu64 " %" PRId64 " %" PRIu32 " %" PRIu32 "\n", r->r_offset, r->r_addend, r->symbol,
                   r->relocation_type);
    }
}

/* An entry of a dynamic array, and what it would name if its value were the offset of a string. */
static void dump_entry(const struct elfmap_table *table, const uint8_t *bytes, size_t len, struct elfmap_dynamic e) {
    struct elfmap_extent text;
    printf("dynamic %" PRId64 " %" PRIu64 " ", e.d_tag, e.d_un);
    if (elfmap_string(table, bytes, len, e.d_un, &text))
        dump_bytes(bytes, text);
    else
        printf("none");
    printf("\n");
}

static void dump_dynamic(const struct elfmap_table *table, const uint8_t *bytes, size_t len, bool at_once) {
    struct elfmap_dynamic block[AT_ONCE];
    uint64_t count = 1;
    for (uint64_t j = 0; count; j += count) {
        count = at_once ? elfmap_dynamics(table, bytes, len, j, block, AT_ONCE) : elfmap_dynamic(table, bytes, len, j, block);
        for (uint64_t k = 0; k < count; k++)
            dump_entry(table, bytes, len, block[k]);
    }
}

/* Whether the first and the last byte of a note are in it. */
static bool is_placed(const struct elfmap_file *file, const uint8_t *bytes, size_t len, uint64_t section, uint64_t j,
                      struct elfmap_extent note) {
    const uint64_t ends[] = {note.start, note.start + note.len - 1};
    struct elfmap_place place;
    bool is_right = true;
    for (int k = 0; k < 2; k++)
        is_right = is_right && elfmap_place(file, bytes, len, ends[k], ELFMAP_CONTENTS + section, &place) && place.entry == j
            && place.record.start == note.start && place.record.len == note.len
            && place.field.start <= ends[k] - note.start && ends[k] - note.start < place.field.start + place.field.len;
    return is_right;
}

/* The notes of a section one after the other, and each by its index too. */
static void dump_notes(const struct elfmap_file *file, uint64_t section, const struct elfmap_table *table, const uint8_t *bytes,
                       size_t len) {
    struct elfmap_note n, by_index;
    uint64_t j = 0;
    for (uint64_t at = 0; elfmap_note_at(table, bytes, len, at, &n); at = n.next, j++) {
        struct elfmap_extent whole = {table->content.start + at, n.next - at};
        printf("note %" PRIu32 " %" PRIu64 " ", n.n_type, n.next);
        dump_bytes(bytes, n.name);
        printf(" ");
        dump_bytes(bytes, n.desc);
        bool is_same = elfmap_note(table, bytes, len, j, &by_index) && by_index.name.start == n.name.start
            && by_index.name.len == n.name.len && by_index.desc.start == n.desc.start && by_index.desc.len == n.desc.len
            && by_index.next == n.next && by_index.n_type == n.n_type;
        printf(is_same ? "" : " by its index it is another one");
        printf(is_placed(file, bytes, len, section, j, whole) ? "\n" : " its bytes are in another one\n");
    }
    if (elfmap_note(table, bytes, len, j, &by_index))
        printf("there is a note after the last one\n");
}

static void dump_words(const struct elfmap_table *table, const uint8_t *bytes, size_t len, bool at_once) {
    uint32_t block[AT_ONCE];
    uint64_t count = 1;
    for (uint64_t j = 0; count; j += count) {
        count = at_once ? elfmap_words(table, bytes, len, j, block, AT_ONCE) : elfmap_word(table, bytes, len, j, block);
        for (uint64_t k = 0; k < count; k++)
            printf("word %" PRIu32 "\n", block[k]);
    }
}

/* Which symbol is found by the name of each symbol of a hash table, and by one that none has. */
static void dump_found(const struct elfmap_table *table, const uint8_t *bytes, size_t len) {
    struct elfmap_table symbols = *table;
    struct elfmap_relocation entry;
    struct elfmap_extent name;
    uint64_t count = table->linked.len / 24;
    uint32_t symbol;
    symbols.content = table->linked;
    symbols.sh_type = RELA;
    for (uint64_t j = 0; j <= count; j++) {
        const uint8_t *text = (const uint8_t *) "no such name";
        size_t text_len = 12;
        if (j < count) {
            /* An entry is read as a relocation, whose first word is the name of the symbol there: any symbol has one. */
            if (!elfmap_relocation(&symbols, bytes, len, j, &entry))
                break;
            uint32_t offset = (uint32_t) (table->ei_data == 2 ? entry.r_offset >> 32 : entry.r_offset);
            if (!elfmap_string(table, bytes, len, offset, &name))
                name.len = name.start = 0;
            text = bytes + name.start;
            text_len = (size_t) name.len;
        }
        printf("found ");
        for (size_t k = 0; k < text_len; k++)
            printf("%02x", (unsigned) text[k]);
        if (elfmap_find(table, bytes, len, text, text_len, &symbol))
            printf(" %" PRIu32 "\n", symbol);
        else
            printf(" none\n");
    }
}

static void dump_tables(const struct elfmap_file *file, const uint8_t *bytes, size_t len, bool at_once) {
    struct elfmap_table t;
    for (uint64_t i = 0; i < file->sections; i++) {
        if (!elfmap_table(file, bytes, len, i, &t))
            continue;
        printf("table %" PRIu64 " %" PRIu64 " %" PRIu64 " %" PRIu64 " %" PRIu64 " %" PRIu64 " %" PRIu64 " %" PRIu64 " %" PRIu32 " %u\n", i,
               t.content.start, t.content.len, t.linked.start, t.linked.len, t.strings.start, t.strings.len, t.entries, t.sh_type,
               (unsigned) t.ei_data);
        if (t.sh_type == SYMTAB || t.sh_type == DYNSYM)
            dump_symbols(&t, bytes, len, at_once);
        else if (t.sh_type == RELA || t.sh_type == REL)
            dump_relocations(&t, bytes, len, at_once);
        else if (t.sh_type == DYNAMIC)
            dump_dynamic(&t, bytes, len, at_once);
        else if (t.sh_type == NOTE)
            dump_notes(file, i, &t, bytes, len);
        else
            dump_words(&t, bytes, len, at_once);
        if (t.sh_type == HASH)
            dump_found(&t, bytes, len);
    }
}

static void dump_file(const char *path) {
    size_t len;
    uint8_t *read = read_whole(path, &len);
    struct elfmap_file file;
    for (int at_end = 0; at_end < 2; at_end++) {
        struct guarded it = guarded_bytes(read, len, at_end);
        printf("-- %s\n", path);
        bool is_kept = dump_verdicts(it.bytes, it.len);
        dump_parts(it.bytes, it.len);
        if (elfmap_file(it.bytes, it.len, &file) && is_kept) {
            dump_header(&file, it.bytes, it.len);
            dump_sections(&file, it.bytes, it.len, at_end);
            dump_segments(&file, it.bytes, it.len);
            dump_loaded(&file, it.bytes, it.len);
            dump_tables(&file, it.bytes, it.len, at_end);
        }
        give_back(it);
    }
    free(read);
}

#endif
