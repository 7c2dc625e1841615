/*
 * Tests of the library for C.
 *
 *   test            checks every export on bytes that stand here; the last line is 'N passed, M failed'
 *   test FILE..     dumps what the library says of each file, for tools/test c-library to compare with the reference implementation
 *
 * The bytes of a file stand between two pages that can't be read, so that a read before or after them ends the program.
 */
#define _DEFAULT_SOURCE
#include "elfmap.h"
#include <inttypes.h>
#include <stdio.h>
#include <stdlib.h>
#include <string.h>
#include <sys/mman.h>
#include <time.h>
#include <unistd.h>

enum { HEADER_SIZE = 64, SECTION_SIZE = 64, SEGMENT_SIZE = 56 };

/* Types of sections. */
enum { SYMTAB = 2, STRTAB = 3, RELA = 4, HASH = 5, DYNAMIC = 6, NOTE = 7, REL = 9, DYNSYM = 11, GROUP = 17, SYMTAB_SHNDX = 18 };

static int passed, failed;

static void check(bool holds, const char *what) {
    if (holds) {
        passed++;
    } else {
        failed++;
        printf("test: %s\n", what);
    }
}

static void stop(const char *why) {
    perror(why);
    exit(2);
}

/* ---- Bytes between two pages that can't be read. */

struct guarded {
    uint8_t *pages; /* the first page, which can't be read */
    size_t size;    /* of all pages */
    uint8_t *bytes;
    size_t len;
};

/* Bytes that end where a page ends that can't be read begins, or that begin where one ends. */
static struct guarded guarded_bytes(const uint8_t *from, size_t len, bool at_end) {
    size_t page = (size_t) sysconf(_SC_PAGESIZE);
    size_t room = (len + page - 1) / page * page + page;
    struct guarded it = {NULL, room + 2 * page, NULL, len};
    it.pages = mmap(NULL, it.size, PROT_NONE, MAP_PRIVATE | MAP_ANONYMOUS, -1, 0);
    if (it.pages == MAP_FAILED || mprotect(it.pages + page, room, PROT_READ | PROT_WRITE) != 0)
        stop("mmap");
    it.bytes = it.pages + page + (at_end ? room - len : 0);
    memcpy(it.bytes, from, len);
    if (mprotect(it.pages + page, room, PROT_READ) != 0)
        stop("mprotect");
    return it;
}

static void give_back(struct guarded it) {
    munmap(it.pages, it.size);
}

/* ---- Made files. */

static void put(uint8_t *at, int width, uint64_t value, bool is_big) {
    for (int i = 0; i < width; i++)
        at[is_big ? width - 1 - i : i] = (uint8_t) (value >> (8 * i));
}

/* The header of a file with so many section headers at this offset. */
static void put_header(uint8_t *bytes, uint64_t e_shoff, uint64_t sections, uint64_t name_table, bool is_big) {
    const uint8_t ident[] = {0x7f, 'E', 'L', 'F', 2, is_big ? 2 : 1, 1};
    memcpy(bytes, ident, sizeof ident);
    put(bytes + 16, 2, 1, is_big);
    put(bytes + 18, 2, 62, is_big);
    put(bytes + 20, 4, 1, is_big);
    put(bytes + 40, 8, e_shoff, is_big);
    put(bytes + 52, 2, HEADER_SIZE, is_big);
    put(bytes + 58, 2, e_shoff ? SECTION_SIZE : 0, is_big);
    put(bytes + 60, 2, sections, is_big);
    put(bytes + 62, 2, name_table, is_big);
}

static void put_section(uint8_t *at, uint32_t name, uint32_t type, uint64_t offset, uint64_t size, bool is_big) {
    put(at, 4, name, is_big);
    put(at + 4, 4, type, is_big);
    put(at + 24, 8, offset, is_big);
    put(at + 32, 8, size, is_big);
}

static void put_segment(uint8_t *at, uint32_t type, uint64_t offset, uint64_t address, uint64_t file_size, uint64_t memory_size,
                        bool is_big) {
    put(at, 4, type, is_big);
    put(at + 8, 8, offset, is_big);
    put(at + 16, 8, address, is_big);
    put(at + 32, 8, file_size, is_big);
    put(at + 40, 8, memory_size, is_big);
}

/* Four bytes at 64, the names at 68, and from 88 on three section headers: NULL, `.data` and `.shstrtab`. */
enum { SMALL_SIZE = 88 + 3 * SECTION_SIZE, SMALL_SECTIONS = 3, SMALL_WANTED = 3 + SMALL_SECTIONS, SMALL_PARTS = 3 * SMALL_WANTED + 1 };
static const char small_names[] = "\0.data\0.shstrtab";

static void make_small(uint8_t *bytes, bool is_big) {
    memset(bytes, 0, SMALL_SIZE);
    put_header(bytes, 88, SMALL_SECTIONS, 2, is_big);
    memcpy(bytes + 68, small_names, sizeof small_names);
    put_section(bytes + 88 + SECTION_SIZE, 1, 1, 64, 4, is_big);
    put_section(bytes + 88 + 2 * SECTION_SIZE, 7, 3, 68, sizeof small_names, is_big);
}

/* Three program headers at 64, and eight bytes at 232. The second of two loadable segments begins within the first one. */
enum { LOADED_SIZE = HEADER_SIZE + 3 * SEGMENT_SIZE + 8, LOADED_AT = HEADER_SIZE + 3 * SEGMENT_SIZE };

static void make_loaded(uint8_t *bytes, bool is_big) {
    memset(bytes, 0, LOADED_SIZE);
    put_header(bytes, 0, 0, 0, is_big);
    put(bytes + 32, 8, HEADER_SIZE, is_big);
    put(bytes + 54, 2, SEGMENT_SIZE, is_big);
    put(bytes + 56, 2, 3, is_big);
    put_segment(bytes + HEADER_SIZE, 4, LOADED_AT, 0x1000, 8, 8, is_big);
    put_segment(bytes + HEADER_SIZE + SEGMENT_SIZE, 1, LOADED_AT + 2, 0x1000, 4, 8, is_big);
    put_segment(bytes + HEADER_SIZE + 2 * SEGMENT_SIZE, 1, LOADED_AT, 0x1004, 8, 8, is_big);
    memcpy(bytes + LOADED_AT, "abcdefgh", 8);
}

/* ---- Checks. */

static bool is_fault(struct elfmap_fault fault, unsigned rule, uint64_t at) {
    return fault.rule == rule && fault.at == at;
}

/* Both verdicts refuse the bytes by this rule at this offset, and accept them where the rule is 0. */
static void check_verdicts(const uint8_t *from, size_t len, unsigned rule, uint64_t at, const char *what) {
    struct guarded it = guarded_bytes(from, len, true);
    struct elfmap_extent room[SMALL_WANTED];
    struct elfmap_fault fault = {77, 88}, fault_in = {77, 88};
    bool kept = elfmap_verdict(it.bytes, it.len, &fault);
    bool kept_in = elfmap_verdict_in(it.bytes, it.len, room, SMALL_WANTED, &fault_in);
    check(kept == (rule == 0) && (kept ? is_fault(fault, 88, 77) : is_fault(fault, rule, at)), what);
    check(kept_in == kept && is_fault(fault_in, fault.rule, fault.at), what);
    give_back(it);
}

static void check_refusals(void) {
    uint8_t bytes[SMALL_SIZE];
    make_small(bytes, false);
    check_verdicts(bytes, SMALL_SIZE, 0, 0, "a small file is accepted");
    check_verdicts(bytes, 0, 2, 0, "no bytes are too short");
    check_verdicts(bytes, 63, 2, 63, "63 bytes are too short");
    check_verdicts(bytes, SMALL_SIZE - 1, 15, 40, "a section table passes the end");
    bytes[3] = 'G';
    check_verdicts(bytes, SMALL_SIZE, 3, 3, "the magic number is wrong");
    make_small(bytes, true);
    check_verdicts(bytes, SMALL_SIZE, 0, 0, "a small file in the other order is accepted");
    put(bytes + 88 + SECTION_SIZE + 32, 8, 5, true);
    check_verdicts(bytes, SMALL_SIZE, 33, 68, "a byte lies in two contents");
    put(bytes + 88 + SECTION_SIZE + 24, 8, 63, true);
    put(bytes + 88 + SECTION_SIZE + 32, 8, 1, true);
    check_verdicts(bytes, SMALL_SIZE, 33, 63, "a byte lies in the header and a content");
    put(bytes + 88 + SECTION_SIZE, 4, sizeof small_names, true);
    check_verdicts(bytes, SMALL_SIZE, 32, 152, "a name passes the end of the table");
}

/* A room of which each extent but the first `count` must stay as it is. */
static void check_rooms(void) {
    uint8_t bytes[SMALL_SIZE];
    struct elfmap_extent room[SMALL_WANTED + 1];
    struct elfmap_fault fault;
    make_small(bytes, false);
    for (size_t count = 0; count < SMALL_WANTED; count++) {
        check(!elfmap_verdict_in(bytes, SMALL_SIZE, room, count, &fault) && is_fault(fault, ELFMAP_SHORT_ROOM, SMALL_WANTED),
              "a room that is too small says how many extents are wanted");
    }
    room[SMALL_WANTED].start = 5;
    room[SMALL_WANTED].len = 6;
    check(elfmap_verdict_in(bytes, SMALL_SIZE, room, SMALL_WANTED, &fault), "a room that is large enough suffices");
    check(room[SMALL_WANTED].start == 5 && room[SMALL_WANTED].len == 6, "nothing is written after the room");
    check(elfmap_verdict_in(bytes, SMALL_SIZE, room, SMALL_WANTED + 1, &fault), "a larger room does too");
    put(bytes + 88 + SECTION_SIZE + 32, 8, 5, false);
    check(!elfmap_verdict_in(bytes, SMALL_SIZE, room, SMALL_WANTED - 1, &fault) && is_fault(fault, ELFMAP_SHORT_ROOM, SMALL_WANTED),
          "a room that is too small finds no shared byte");
    put(bytes + 20, 4, 2, false);
    check(!elfmap_verdict_in(bytes, SMALL_SIZE, room, 0, &fault) && is_fault(fault, 7, 20), "other rules want no room");
}

static bool is_part(struct elfmap_part part, uint64_t start, uint64_t len, uint64_t owner) {
    return part.start == start && part.len == len && part.owner == owner;
}

static void check_parts(bool is_big) {
    uint8_t made[SMALL_SIZE];
    struct elfmap_part room[SMALL_PARTS + 1];
    struct elfmap_fault fault = {77, 88};
    uint64_t parts = 99;
    make_small(made, is_big);
    memset(room, 0x5a, sizeof room);
    struct guarded it = guarded_bytes(made, SMALL_SIZE, true);
    for (size_t count = 0; count < SMALL_PARTS; count++) {
        check(!elfmap_parts(it.bytes, it.len, room, count, &parts, &fault) && is_fault(fault, ELFMAP_SHORT_ROOM, SMALL_PARTS)
                  && parts == 99,
              "a room that is too small says how many parts are wanted");
    }
    check(elfmap_parts(it.bytes, it.len, room, SMALL_PARTS, &parts, &fault) && parts == 5, "a small file has five parts");
    check(is_part(room[0], 0, 64, ELFMAP_HEADER) && is_part(room[1], 64, 4, ELFMAP_CONTENTS + 1)
              && is_part(room[2], 68, sizeof small_names, ELFMAP_CONTENTS + 2)
              && is_part(room[3], 68 + sizeof small_names, 20 - sizeof small_names, ELFMAP_GAP)
              && is_part(room[4], 88, 3 * SECTION_SIZE, ELFMAP_SECTION_HEADERS), "they are right");
    check(is_fault(fault, ELFMAP_SHORT_ROOM, SMALL_PARTS), "a fault stays as it was where there is none");
    check(room[SMALL_PARTS].start == UINT64_C(0x5a5a5a5a5a5a5a5a), "nothing is written after the room");
    give_back(it);
    put(made + 88 + SECTION_SIZE + 32, 8, 5, is_big);
    parts = 99;
    check(!elfmap_parts(made, SMALL_SIZE, room, SMALL_PARTS + 1, &parts, &fault) && is_fault(fault, 33, 68) && parts == 99,
          "a byte in two contents leaves no account");
    check(!elfmap_parts(made, SMALL_SIZE, room, SMALL_PARTS - 1, &parts, &fault) && is_fault(fault, ELFMAP_SHORT_ROOM, SMALL_PARTS),
          "a room that is too small finds no shared byte");
    made[3] = 'G';
    check(!elfmap_parts(made, SMALL_SIZE, room, 0, &parts, &fault) && is_fault(fault, 3, 3) && parts == 99, "other rules want no room");
    check(!elfmap_parts(made, 0, room, 0, &parts, &fault) && is_fault(fault, 2, 0), "no bytes have no parts");
}

static void check_load(bool is_big) {
    uint8_t made[LOADED_SIZE], byte = 77;
    struct elfmap_part room[10];
    struct elfmap_fault fault;
    struct elfmap_file file;
    uint64_t parts;
    const char expected[] = "cdef\0\0\0\0efgh";
    bool is_right = true;
    make_loaded(made, is_big);
    struct guarded it = guarded_bytes(made, LOADED_SIZE, true);
    check(elfmap_verdict(it.bytes, it.len, &fault) && elfmap_file(it.bytes, it.len, &file), "a small loadable file is accepted");
    check(elfmap_parts(it.bytes, it.len, room, 10, &parts, &fault) && parts == 3 && is_part(room[0], 0, HEADER_SIZE, ELFMAP_HEADER)
              && is_part(room[1], HEADER_SIZE, 3 * SEGMENT_SIZE, ELFMAP_PROGRAM_HEADERS) && is_part(room[2], LOADED_AT, 8, ELFMAP_GAP),
          "it has three parts");
    for (uint64_t k = 0; k < 12; k++)
        is_right = is_right && elfmap_load(&file, it.bytes, it.len, 0x1000 + k, &byte) && byte == (uint8_t) expected[k];
    check(is_right, "the first loadable segment gives the byte, or 0 after its bytes in the file");
    byte = 77;
    check(!elfmap_load(&file, it.bytes, it.len, 0xfff, &byte) && !elfmap_load(&file, it.bytes, it.len, 0x100c, &byte)
              && !elfmap_load(&file, it.bytes, it.len, 0, &byte) && !elfmap_load(&file, it.bytes, it.len, UINT64_MAX, &byte) && byte == 77,
          "no other address has a byte");
    give_back(it);
}

static void check_records(bool is_big) {
    uint8_t made[SMALL_SIZE];
    struct elfmap_file file;
    struct elfmap_header header;
    struct elfmap_section section;
    struct elfmap_extent name;
    make_small(made, is_big);
    struct guarded it = guarded_bytes(made, SMALL_SIZE, true);
    check(elfmap_file(it.bytes, it.len, &file), "the numbers of a small file are found");
    check(file.e_phoff == 0 && file.e_shoff == 88 && file.sections == 3 && file.segments == 0 && file.name_table == 2
              && file.ei_data == (is_big ? 2 : 1), "they are right");
    check(elfmap_header(it.bytes, it.len, &header) && memcmp(header.e_ident, it.bytes, 16) == 0 && header.e_machine == 62
              && header.e_version == 1 && header.e_shnum == 3, "the header is right");
    check(elfmap_section(&file, it.bytes, it.len, 1, &section) && section.sh_name == 1 && section.sh_type == 1
              && section.sh_offset == 64 && section.sh_size == 4, "section header 1 is right");
    check(elfmap_name(&file, it.bytes, it.len, 0, &name) && name.start == 0 && name.len == 0, "section 0 has no name");
    check(elfmap_name(&file, it.bytes, it.len, 1, &name) && name.start == 69 && name.len == 5, "section 1 has its name");
    check(elfmap_name(&file, it.bytes, it.len, 2, &name) && name.start == 75 && name.len == 9, "section 2 has its name");
    give_back(it);
}

/* What is out of range is refused, and what was to be filled in stays as it was. */
static void check_unchanged(void) {
    uint8_t bytes[SMALL_SIZE];
    struct elfmap_file file, other;
    struct elfmap_header header, header_before;
    struct elfmap_section section, section_before;
    struct elfmap_segment segment, segment_before;
    struct elfmap_extent name = {7, 8};
    make_small(bytes, false);
    memset(&header, 0x5a, sizeof header);
    memset(&section, 0x5a, sizeof section);
    memset(&segment, 0x5a, sizeof segment);
    header_before = header;
    section_before = section;
    segment_before = segment;
    check(elfmap_file(bytes, SMALL_SIZE, &file), "the numbers of a small file are found");
    memset(&other, 0x5a, sizeof other);
    check(!elfmap_file(bytes, 63, &other) && other.sections == UINT64_C(0x5a5a5a5a5a5a5a5a), "63 bytes have no numbers");
    check(!elfmap_file(bytes, 88 + 63, &other) && other.ei_data == 0x5a, "without section header 0 there are none");
    check(!elfmap_header(bytes, 63, &header) && memcmp(&header, &header_before, sizeof header) == 0, "63 bytes have no header");
    for (int k = 0; k < 2; k++) {
        uint64_t index = k == 0 ? 3 : UINT64_MAX;
        check(!elfmap_section(&file, bytes, SMALL_SIZE, index, &section)
                  && memcmp(&section, &section_before, sizeof section) == 0, "there is no such section");
        check(!elfmap_name(&file, bytes, SMALL_SIZE, index, &name) && name.start == 7 && name.len == 8, "nor a name of it");
        check(!elfmap_segment(&file, bytes, SMALL_SIZE, index - 3, &segment)
                  && memcmp(&segment, &segment_before, sizeof segment) == 0, "there is no such segment");
    }
}

/* With any numbers in place of a file's no call reads outside of the bytes, and a name lies in them. */
static void check_any_numbers(void) {
    const uint64_t numbers[] = {0, 1, 2, 3, 24, 63, 64, 65, 88, 216, 279, 280, 281, UINT64_C(1) << 32, UINT64_C(1) << 58,
                                UINT64_MAX / 64, UINT64_MAX - 63, UINT64_MAX - 1, UINT64_MAX};
    const size_t count = sizeof numbers / sizeof *numbers;
    uint8_t made[SMALL_SIZE];
    bool is_inside = true;
    make_small(made, false);
    for (int at_end = 0; at_end < 2; at_end++) {
        struct guarded it = guarded_bytes(made, SMALL_SIZE, at_end);
        for (size_t k = 0; k < count * count * count; k++) {
            uint64_t table = numbers[k % count], index = numbers[k / count % count], name_table = numbers[k / count / count];
            struct elfmap_file file = {table, table, UINT64_MAX, UINT64_MAX, name_table, (uint8_t) k};
            struct elfmap_section section;
            struct elfmap_segment segment;
            struct elfmap_section sections[2];
            struct elfmap_extent name;
            struct elfmap_place place;
            uint64_t owner;
            uint8_t byte;
            elfmap_section(&file, it.bytes, it.len, index, &section);
            elfmap_sections(&file, it.bytes, it.len, index, sections, 2);
            elfmap_owner(&file, it.bytes, it.len, index, name_table, &owner);
            elfmap_section_named(&file, it.bytes, it.len, it.bytes + it.len - k % 9, k % 9, &owner);
            elfmap_place(&file, it.bytes, it.len, index, name_table, &place);
            elfmap_load(&file, it.bytes, it.len, index, &byte);
            elfmap_segment(&file, it.bytes, it.len, index, &segment);
            if (elfmap_name(&file, it.bytes, it.len, index, &name))
                is_inside = is_inside && name.start <= it.len && name.len <= it.len - name.start;
        }
        give_back(it);
    }
    check(is_inside, "each name lies in the bytes");
}

/* ---- The tables. */

/* A file with a table of each kind, from 64 on, each at a multiple of 4, and then its section headers. */
enum { SYMBOLS_AT = 64, NAMES_AT = SYMBOLS_AT + 3 * 24, WORDS_AT = NAMES_AT + 12, RELA_AT = WORDS_AT + 12, REL_AT = RELA_AT + 24,
       DYNAMIC_AT = REL_AT + 16, NOTES_AT = DYNAMIC_AT + 3 * 16, HASH_AT = NOTES_AT + 40, TABLES_AT = HASH_AT + 24, TABLES = 10,
       TABLES_SIZE = TABLES_AT + TABLES * SECTION_SIZE };
static const char symbol_names[12] = "\0one\0second";

static void put_linked(uint8_t *bytes, int i, uint32_t type, uint64_t offset, uint64_t size, uint32_t link, bool is_big) {
    put_section(bytes + TABLES_AT + SECTION_SIZE * i, 0, type, offset, size, is_big);
    put(bytes + TABLES_AT + SECTION_SIZE * i + 40, 4, link, is_big);
}

static void put_symbol(uint8_t *at, uint32_t name, uint8_t info, uint16_t section, uint64_t value, uint64_t size, bool is_big) {
    put(at, 4, name, is_big);
    at[4] = info;
    at[5] = 2;
    put(at + 6, 2, section, is_big);
    put(at + 8, 8, value, is_big);
    put(at + 16, 8, size, is_big);
}

static void put_note(uint8_t *at, const char *name, uint32_t desc_size, uint32_t type, bool is_big) {
    put(at, 4, strlen(name) + 1, is_big);
    put(at + 4, 4, desc_size, is_big);
    put(at + 8, 4, type, is_big);
    memcpy(at + 12, name, strlen(name) + 1);
}

static void make_tables(uint8_t *bytes, bool is_big) {
    memset(bytes, 0, TABLES_SIZE);
    put_header(bytes, TABLES_AT, TABLES, 0, is_big);
    put_symbol(bytes + SYMBOLS_AT + 24, 1, 0x12, 1, 5, 6, is_big);
    put_symbol(bytes + SYMBOLS_AT + 48, 5, 0x21, 0xffff, UINT64_MAX, 7, is_big);
    memcpy(bytes + NAMES_AT, symbol_names, sizeof symbol_names);
    put(bytes + WORDS_AT + 8, 4, 70000, is_big);
    put(bytes + RELA_AT, 8, 16, is_big);
    put(bytes + RELA_AT + 8, 8, (UINT64_C(2) << 32) + 11, is_big);
    put(bytes + RELA_AT + 16, 8, UINT64_MAX - 3, is_big);
    put(bytes + REL_AT, 8, 24, is_big);
    put(bytes + REL_AT + 8, 8, (UINT64_C(1) << 32) + 9, is_big);
    put(bytes + DYNAMIC_AT, 8, 1, is_big);
    put(bytes + DYNAMIC_AT + 8, 8, 5, is_big);
    put(bytes + DYNAMIC_AT + 32, 8, 7, is_big);
    put_note(bytes + NOTES_AT, "GNU", 5, 3, is_big);
    put_note(bytes + NOTES_AT + 24, "", 0, 4, is_big);
    put_linked(bytes, 1, SYMTAB, SYMBOLS_AT, 3 * 24, 2, is_big);
    put_linked(bytes, 2, STRTAB, NAMES_AT, sizeof symbol_names, 0, is_big);
    put_linked(bytes, 3, SYMTAB_SHNDX, WORDS_AT, 12, 1, is_big);
    put_linked(bytes, 4, RELA, RELA_AT, 24, 1, is_big);
    put_linked(bytes, 5, REL, REL_AT, 16, 1, is_big);
    put_linked(bytes, 6, DYNAMIC, DYNAMIC_AT, 3 * 16, 2, is_big);
    put_linked(bytes, 7, NOTE, NOTES_AT, 40, 0, is_big);
    put_linked(bytes, 8, HASH, HASH_AT, 24, 1, is_big);
    put_linked(bytes, 9, SYMTAB, SYMBOLS_AT, 0, TABLES, is_big);
}

static bool is_place(struct elfmap_extent place, uint64_t start, uint64_t len) {
    return place.start == start && place.len == len;
}

static void check_symbols(const struct elfmap_table *table, struct guarded it) {
    struct elfmap_symbol s;
    check(is_place(table->content, SYMBOLS_AT, 72) && is_place(table->linked, WORDS_AT, 12) && is_place(table->strings, NAMES_AT, 12)
              && table->entries == 3 && table->sh_type == SYMTAB, "a symbol table has its index table and its names");
    check(elfmap_symbol(table, it.bytes, it.len, 0, &s) && is_place(s.name, 0, 0) && s.st_info == 0 && s.section == 0, "symbol 0 is null");
    check(elfmap_symbol(table, it.bytes, it.len, 1, &s) && is_place(s.name, NAMES_AT + 1, 3) && s.st_value == 5 && s.st_size == 6
              && s.st_name == 1 && s.section == 1 && s.st_shndx == 1 && s.st_info == 0x12 && s.st_other == 2, "symbol 1 is right");
    check(elfmap_symbol(table, it.bytes, it.len, 2, &s) && is_place(s.name, NAMES_AT + 5, 6) && s.st_value == UINT64_MAX && s.st_size == 7
              && s.st_name == 5 && s.section == 70000 && s.st_shndx == 0xffff && s.st_info == 0x21,
          "symbol 2 has its section from the index table");
}

static void check_relocations(const struct elfmap_table *table, struct guarded it) {
    struct elfmap_relocation r;
    bool has_addends = table->sh_type == RELA;
    check(table->entries == 1 && elfmap_relocation(table, it.bytes, it.len, 0, &r), "a relocation section has a relocation");
    if (has_addends)
        check(r.r_offset == 16 && r.r_addend == -4 && r.symbol == 2 && r.relocation_type == 11, "it is right");
    else
        check(r.r_offset == 24 && r.r_addend == 0 && r.symbol == 1 && r.relocation_type == 9, "it is right without an addend");
}

static void check_dynamic(const struct elfmap_table *table, struct guarded it) {
    struct elfmap_dynamic e;
    struct elfmap_extent text;
    check(table->entries == 1 && is_place(table->strings, NAMES_AT, 12), "a dynamic array ends before its first null entry");
    check(elfmap_dynamic(table, it.bytes, it.len, 0, &e) && e.d_tag == 1 && e.d_un == 5, "its entry is right");
    check(elfmap_string(table, it.bytes, it.len, e.d_un, &text) && is_place(text, NAMES_AT + 5, 6), "and so is its string");
    check(elfmap_string(table, it.bytes, it.len, 11, &text) && is_place(text, 0, 0), "the last string is empty");
    text.start = 7;
    text.len = 8;
    check(!elfmap_string(table, it.bytes, it.len, 12, &text) && is_place(text, 7, 8), "there is none after it");
}

static void check_notes(const struct elfmap_table *table, struct guarded it) {
    struct elfmap_note n;
    check(table->entries == 2, "a note section has its notes");
    check(elfmap_note(table, it.bytes, it.len, 0, &n) && is_place(n.name, NOTES_AT + 12, 3) && is_place(n.desc, NOTES_AT + 16, 5)
              && n.next == 24 && n.n_type == 3, "note 0 is right");
    check(elfmap_note_at(table, it.bytes, it.len, n.next, &n) && n.name.len == 0 && n.desc.len == 0 && n.next == 40 && n.n_type == 4,
          "note 1 begins after it");
    check(!elfmap_note_at(table, it.bytes, it.len, n.next, &n) && n.n_type == 4, "no note begins after the last one");
}

/* Of notes of which one is cut those before it are counted and read, and their bytes have places. */
static void check_cut_notes(bool is_big) {
    const uint64_t places[] = {0, 23, 24, 28, 39};
    uint8_t made[TABLES_SIZE];
    struct elfmap_file file;
    struct elfmap_table table;
    struct elfmap_note n;
    struct elfmap_place place;
    bool is_right = true;
    make_tables(made, is_big);
    put(made + NOTES_AT + 24 + 4, 4, 1, is_big);
    struct guarded it = guarded_bytes(made, TABLES_SIZE, true);
    check(elfmap_file(it.bytes, it.len, &file) && elfmap_table(&file, it.bytes, it.len, 7, &table) && table.entries == 1,
          "a note that is cut is not counted");
    check(elfmap_note(&table, it.bytes, it.len, 0, &n) && n.next == 24 && !elfmap_note(&table, it.bytes, it.len, 1, &n), "nor read");
    for (int k = 0; k < 5; k++)
        is_right = is_right && elfmap_place(&file, it.bytes, it.len, NOTES_AT + places[k], ELFMAP_CONTENTS + 7, &place) == (k < 2);
    check(is_right, "none of its bytes has a place");
    give_back(it);
}

static void check_tables(bool is_big) {
    uint8_t made[TABLES_SIZE];
    struct elfmap_file file;
    struct elfmap_table table;
    make_tables(made, is_big);
    struct guarded it = guarded_bytes(made, TABLES_SIZE, true);
    check(elfmap_file(it.bytes, it.len, &file) && file.sections == TABLES, "there is a table of each kind");
    check(elfmap_table(&file, it.bytes, it.len, 1, &table), "there is a symbol table");
    check_symbols(&table, it);
    for (int i = 4; i <= 5; i++) {
        check(elfmap_table(&file, it.bytes, it.len, i, &table), "there is a relocation section");
        check_relocations(&table, it);
    }
    check(elfmap_table(&file, it.bytes, it.len, 6, &table), "there is a dynamic array");
    check_dynamic(&table, it);
    check(elfmap_table(&file, it.bytes, it.len, 7, &table), "there is a note section");
    check_notes(&table, it);
    check(elfmap_table(&file, it.bytes, it.len, 8, &table) && is_place(table.content, HASH_AT, 24) && is_place(table.linked, SYMBOLS_AT, 72)
              && is_place(table.strings, NAMES_AT, 12) && table.entries == 6, "a hash table has its symbols and their names");
    give_back(it);
}

static void put_words(uint8_t *at, const uint32_t *words, int count, bool is_big) {
    for (int k = 0; k < count; k++)
        put(at + 4 * k, 4, words[k], is_big);
}

static bool finds(const struct elfmap_table *table, struct guarded it, const char *name, uint32_t wanted) {
    struct guarded text = guarded_bytes((const uint8_t *) name, strlen(name), true);
    uint32_t symbol = 77;
    bool is_found = elfmap_find(table, it.bytes, it.len, text.bytes, text.len, &symbol);
    give_back(text);
    return is_found == (wanted != 77) && symbol == wanted;
}

/* Finding by a hash table of one bucket, whose chain is symbols 1 and 2; and by words that break a rule. */
static void check_find(bool is_big) {
    const uint32_t words[] = {1, 3, 1, 0, 2, 0}, circle[] = {1, 3, 1, 1, 2, 1}, past[] = {1, 3, UINT32_MAX, 9, 9, 9},
        no_buckets[] = {0, 3, 1, 0, 2, 0}, many[] = {1, UINT32_MAX, 1, 0, 2, 1}, cut[] = {UINT32_MAX, 3, 1, 0, 2, 0};
    const uint32_t *const broken[] = {circle, past, no_buckets, many, cut};
    uint8_t made[TABLES_SIZE];
    struct elfmap_file file;
    struct elfmap_table table;
    make_tables(made, is_big);
    put_words(made + HASH_AT, words, 6, is_big);
    struct guarded it = guarded_bytes(made, TABLES_SIZE, true);
    check(elfmap_file(it.bytes, it.len, &file) && elfmap_table(&file, it.bytes, it.len, 8, &table), "there is a hash table");
    check(finds(&table, it, "one", 1) && finds(&table, it, "second", 2), "each symbol is found by its name");
    check(finds(&table, it, "", 77) && finds(&table, it, "on", 77) && finds(&table, it, "ones", 77) && finds(&table, it, "no such", 77),
          "no other name is found");
    give_back(it);
    for (size_t k = 0; k < sizeof broken / sizeof *broken; k++) {
        put_words(made + HASH_AT, broken[k], 6, is_big);
        it = guarded_bytes(made, TABLES_SIZE, true);
        check(finds(&table, it, "no such", 77), "a look-up ends in words that break a rule");
        give_back(it);
    }
}

/* With any places in a table a look-up reads nothing outside of the bytes. */
static void check_any_find(void) {
    const uint64_t numbers[] = {0, 1, 4, 64, HASH_AT, TABLES_SIZE - 4, TABLES_SIZE, UINT64_C(1) << 60, UINT64_MAX - 3, UINT64_MAX};
    const size_t count = sizeof numbers / sizeof *numbers;
    uint8_t made[TABLES_SIZE];
    size_t found = 0, tried = 0;
    make_tables(made, false);
    for (int at_end = 0; at_end < 2; at_end++) {
        struct guarded it = guarded_bytes(made, TABLES_SIZE, at_end);
        for (size_t k = 0; k < count * count * count * count; k++, tried++) {
            struct elfmap_extent words = {numbers[k % count], numbers[k / count % count]};
            struct elfmap_extent symbols = {numbers[k / count / count % count], numbers[k / count / count / count]};
            struct elfmap_table table = {words, symbols, symbols, k, HASH, (uint8_t) (k % 3)};
            uint32_t symbol;
            found += elfmap_find(&table, it.bytes, it.len, made, k % 9, &symbol);
        }
        give_back(it);
    }
    check(found < tried, "not every name is found");
}

/* What there isn't is refused, and what was to be filled in stays as it was. */
static void check_tables_unchanged(void) {
    uint8_t bytes[TABLES_SIZE];
    struct elfmap_file file;
    struct elfmap_table table, before;
    struct elfmap_symbol symbol = {{1, 2}, 3, 4, 5, 6, 7, 8, 9};
    struct elfmap_relocation relocation = {1, 2, 3, 4};
    struct elfmap_dynamic entry = {1, 2};
    struct elfmap_note note = {{1, 2}, {3, 4}, 5, 6};
    const uint64_t none[] = {0, 2, 9, TABLES, UINT64_MAX};
    make_tables(bytes, false);
    check(elfmap_file(bytes, TABLES_SIZE, &file), "the numbers of the file are found");
    memset(&table, 0x5a, sizeof table);
    before = table;
    for (size_t k = 0; k < sizeof none / sizeof *none; k++)
        check(!elfmap_table(&file, bytes, TABLES_SIZE, none[k], &table) && memcmp(&table, &before, sizeof table) == 0,
              "there is no table, or what it links to isn't there");
    for (int k = 0; k < 2; k++) {
        uint64_t more = k == 0 ? 0 : UINT64_MAX - 3;
        elfmap_table(&file, bytes, TABLES_SIZE, 1, &table);
        check(!elfmap_symbol(&table, bytes, TABLES_SIZE, 3 + more, &symbol) && symbol.st_size == 4 && symbol.st_other == 9,
              "there is no such symbol");
        elfmap_table(&file, bytes, TABLES_SIZE, 4, &table);
        check(!elfmap_relocation(&table, bytes, TABLES_SIZE, 1 + more, &relocation) && relocation.r_addend == 2, "nor such a relocation");
        elfmap_table(&file, bytes, TABLES_SIZE, 6, &table);
        check(!elfmap_dynamic(&table, bytes, TABLES_SIZE, 1 + more, &entry) && entry.d_un == 2, "nor such an entry");
        elfmap_table(&file, bytes, TABLES_SIZE, 7, &table);
        check(!elfmap_note(&table, bytes, TABLES_SIZE, 2 + more, &note) && note.desc.len == 4 && note.n_type == 6, "nor such a note");
    }
}

/* A table is no table of another kind. */
static void check_other_kinds(void) {
    uint8_t bytes[TABLES_SIZE];
    struct elfmap_file file;
    struct elfmap_table table;
    struct elfmap_symbol symbol;
    struct elfmap_relocation relocation;
    struct elfmap_dynamic entry;
    struct elfmap_note note;
    uint32_t word;
    make_tables(bytes, false);
    check(elfmap_file(bytes, TABLES_SIZE, &file), "the numbers of the file are found");
    for (uint64_t i = 1; i < TABLES; i++) {
        if (!elfmap_table(&file, bytes, TABLES_SIZE, i, &table))
            continue;
        bool is_relocated = table.sh_type == RELA || table.sh_type == REL;
        check(elfmap_symbol(&table, bytes, TABLES_SIZE, 0, &symbol) == (table.sh_type == SYMTAB), "only a symbol table has symbols");
        check(elfmap_relocation(&table, bytes, TABLES_SIZE, 0, &relocation) == is_relocated, "only a relocation section has relocations");
        check(elfmap_dynamic(&table, bytes, TABLES_SIZE, 0, &entry) == (table.sh_type == DYNAMIC), "only a dynamic array has its entries");
        check(elfmap_note(&table, bytes, TABLES_SIZE, 0, &note) == (table.sh_type == NOTE), "only a note section has notes");
        check(elfmap_note_at(&table, bytes, TABLES_SIZE, 0, &note) == (table.sh_type == NOTE), "at no offset of another one is a note");
        check(elfmap_word(&table, bytes, TABLES_SIZE, 0, &word) == (table.sh_type == HASH || table.sh_type == SYMTAB_SHNDX)
                  && !elfmap_words(&table, bytes, TABLES_SIZE, 0, &word, 1) == !elfmap_word(&table, bytes, TABLES_SIZE, 0, &word),
              "only some tables have words");
    }
}

static bool lies_in(struct elfmap_extent place, size_t len) {
    return place.start <= len && place.len <= len - place.start;
}

/* With any numbers in place of a table's no call reads outside of the bytes, and each place that is returned lies in them. */
static void check_any_tables(void) {
    const uint64_t numbers[] = {0, 1, 3, 64, 135, 136, TABLES_SIZE - 24, TABLES_SIZE - 12, TABLES_SIZE - 1, TABLES_SIZE, UINT64_C(1) << 60,
                                UINT64_MAX / 24, UINT64_MAX - 23, UINT64_MAX};
    enum { KINDS = 6 };
    const uint32_t kinds[KINDS] = {SYMTAB, RELA, REL, DYNAMIC, NOTE, GROUP};
    const size_t count = sizeof numbers / sizeof *numbers;
    uint8_t made[TABLES_SIZE];
    bool is_inside = true;
    make_tables(made, false);
    for (int at_end = 0; at_end < 2; at_end++) {
        struct guarded it = guarded_bytes(made, TABLES_SIZE, at_end);
        for (size_t k = 0; k < KINDS * count * count * count; k++) {
            uint64_t start = numbers[k / KINDS % count], size = numbers[k / KINDS / count % count];
            uint64_t index = numbers[k / KINDS / count / count];
            struct elfmap_extent part = {start, size}, place;
            struct elfmap_table table = {part, part, part, UINT64_MAX, kinds[k % KINDS], (uint8_t) (k % 3)}, other;
            struct elfmap_file file = {start, size, UINT64_MAX, UINT64_MAX, 0, (uint8_t) (k % 3)};
            struct elfmap_symbol symbol;
            struct elfmap_symbol symbols[2];
            struct elfmap_relocation relocation, relocations[2];
            struct elfmap_dynamic entry, entries[2];
            struct elfmap_note note;
            uint32_t words[2];
            elfmap_table(&file, it.bytes, it.len, index, &other);
            elfmap_word(&table, it.bytes, it.len, index, words);
            elfmap_words(&table, it.bytes, it.len, index, words, 2);
            elfmap_relocation(&table, it.bytes, it.len, index, &relocation);
            elfmap_relocations(&table, it.bytes, it.len, index, relocations, 2);
            elfmap_dynamic(&table, it.bytes, it.len, index, &entry);
            elfmap_dynamics(&table, it.bytes, it.len, index, entries, 2);
            for (uint64_t done = elfmap_symbols(&table, it.bytes, it.len, index, symbols, 2); done > 0; done--)
                is_inside = is_inside && lies_in(symbols[done - 1].name, it.len);
            is_inside = is_inside && (!elfmap_symbol(&table, it.bytes, it.len, index, &symbol) || lies_in(symbol.name, it.len))
                && (!elfmap_string(&table, it.bytes, it.len, index, &place) || lies_in(place, it.len))
                && (!elfmap_note(&table, it.bytes, it.len, index, &note) || (lies_in(note.name, it.len) && lies_in(note.desc, it.len)))
                && (!elfmap_note_at(&table, it.bytes, it.len, index, &note) || (lies_in(note.name, it.len) && lies_in(note.desc, it.len)));
        }
        give_back(it);
    }
    check(is_inside, "each place that is returned of a table lies in the bytes");
}

/* The parts of a file whose contents, of a byte each, stand in the opposite order of their headers, in less than a second. */
static void check_descending_parts(const uint8_t *bytes, size_t len, uint64_t sections) {
    size_t wanted = 3 * (sections + 3) + 1;
    struct elfmap_part *room = calloc(wanted, sizeof *room);
    struct elfmap_fault fault;
    uint64_t parts = 0;
    if (!room)
        stop("calloc");
    clock_t begun = clock();
    check(elfmap_parts(bytes, len, room, wanted, &parts, &fault) && parts == sections + 2, "the parts of so many contents are found");
    check(is_part(room[1], HEADER_SIZE, 1, ELFMAP_GAP) && is_part(room[2], HEADER_SIZE + 1, 1, ELFMAP_CONTENTS + sections - 1)
              && is_part(room[parts - 1], HEADER_SIZE + sections, SECTION_SIZE * sections, ELFMAP_SECTION_HEADERS), "they are right");
    check(clock() - begun < CLOCKS_PER_SEC, "that takes less than a second too");
    free(room);
}

/* A file whose contents, of a byte each, stand in the opposite order of their headers is validated by a room in less than a second. */
static void check_descending(void) {
    const uint64_t sections = 200000;
    const size_t len = HEADER_SIZE + sections + SECTION_SIZE * sections;
    uint8_t *bytes = calloc(len, 1);
    struct elfmap_extent *room = calloc(sections + 3, sizeof *room);
    struct elfmap_fault fault;
    if (!bytes || !room)
        stop("calloc");
    put_header(bytes, HEADER_SIZE + sections, 0, 0, false);
    uint8_t *table = bytes + HEADER_SIZE + sections;
    put(table + 32, 8, sections, false);
    for (uint64_t i = 1; i < sections; i++)
        put_section(table + SECTION_SIZE * i, 0, 1, HEADER_SIZE + sections - i, 1, false);
    clock_t begun = clock();
    check(elfmap_verdict_in(bytes, len, room, sections + 3, &fault), "contents in descending order are accepted");
    put(table + SECTION_SIZE * 1000 + 24, 8, HEADER_SIZE + sections - 7, false);
    check(!elfmap_verdict_in(bytes, len, room, sections + 3, &fault) && is_fault(fault, 33, HEADER_SIZE + sections - 7),
          "and two of them at one byte are not");
    check(clock() - begun < CLOCKS_PER_SEC, "that takes less than a second");
    free(room);
    put(table + SECTION_SIZE * 1000 + 24, 8, HEADER_SIZE + sections - 1000, false);
    check_descending_parts(bytes, len, sections);
    free(bytes);
}

#include "bulk.h"
#include "dump.h"
#include "names.h"
#include "nothing.h"
#include "owners.h"
#include "words.h"

int main(int count, char **words) {
    for (int k = 1; k < count; k++)
        dump_file(words[k]);
    if (count > 1)
        return 0;
    check_refusals();
    check_rooms();
    check_parts(false);
    check_parts(true);
    check_load(false);
    check_load(true);
    check_records(false);
    check_records(true);
    check_unchanged();
    check_any_numbers();
    for (int is_big = 0; is_big < 2; is_big++) {
        check_owners(is_big);
        check_shared(is_big);
        check_places(is_big);
        check_many(is_big);
        check_names(is_big);
        check_tables_of_words(is_big);
    }
    check_nothing();
    check(elfmap_version() == ELFMAP_VERSION, "the library is of the version of its header");
    check_no_places();
    check_tables(false);
    check_tables(true);
    check_cut_notes(false);
    check_cut_notes(true);
    check_find(false);
    check_find(true);
    check_any_find();
    check_tables_unchanged();
    check_other_kinds();
    check_any_tables();
    check_descending();
    printf("%d passed, %d failed\n", passed, failed);
    return failed == 0 ? 0 : 1;
}
