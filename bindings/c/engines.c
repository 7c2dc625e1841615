/*
 * Tests of the engines of the library for C.
 *
 *   engines                                    checks each engine on bytes that stand here; the last line is 'N passed, M failed'
 *   engines show FILE
 *   engines rewrite FILE
 *   engines map BASE PAGE RULES FILE..         RULES is a file, or - for no relocation rules
 *   engines link BASE PAGE ENTRY RULES FILE..
 *                                              writes the status and the numbers of the outcome in a line, and after it what the engine
 *                                              says, for tools/test c-library to compare with the cases
 *
 * Each call is tried with a room that is ample, one that is just as long as is wanted, one that is a byte shorter, and one of no bytes; and
 * with memory that is refused at the first request, at the second, and so on. With OVER_MALLOC the memory is that of memory.c, of which
 * nothing is refused.
 */
#define _DEFAULT_SOURCE
#include "elfmap.h"
#include <inttypes.h>
#include <stdio.h>
#include <stdlib.h>
#include <string.h>
#include <sys/mman.h>

static int passed, failed;

static bool check(bool holds, const char *what) {
    if (holds) {
        passed++;
    } else {
        failed++;
        fprintf(stderr, "engines: %s\n", what);
    }
    return holds;
}

static void stop(const char *why) {
    perror(why);
    exit(2);
}

/* ---- Memory that is counted, and refused when the test says so. */

static long held; /* how many blocks are held */

#ifndef OVER_MALLOC
static unsigned long requests; /* how many blocks were asked for */
static unsigned long refused;  /* the number of the request that is refused, from 1; 0 for none */
static size_t in_use, most;    /* how many bytes the blocks have, and the most that they had at once */

/* What is in front of a block: how many bytes it has. An alignment divides 16. */
union front {
    size_t size;
    char room[16];
};

static struct elfmap_block block_of(union front *front, size_t size) {
    struct elfmap_block block = {front != NULL, front != NULL ? (void *) (front + 1) : (void *) &requests};
    if (front) {
        front->size = size;
        in_use += size;
        most = in_use > most ? in_use : most;
    }
    return block;
}

struct elfmap_block elfmap_alloc(size_t size, size_t align) {
    check(align != 0 && 16 % align == 0, "an alignment divides 16");
    union front *front = ++requests == refused ? NULL : malloc(sizeof *front + size);
    held += front != NULL;
    return block_of(front, size);
}

struct elfmap_block elfmap_realloc(void *start, size_t kept, size_t size, size_t align) {
    check(align != 0 && 16 % align == 0, "an alignment divides 16");
    check(kept <= size, "what is kept fits");
    union front *front = (union front *) start - 1;
    size_t before = front->size;
    front = ++requests == refused ? NULL : realloc(front, sizeof *front + size);
    in_use -= front != NULL ? before : 0;
    return block_of(front, size);
}

void elfmap_dealloc(void *start) {
    union front *front = (union front *) start - 1;
    held--;
    in_use -= front->size;
    free(front);
}
#endif

/* ---- A call, and what it answers. */

enum engine { SHOW, REWRITE, MAP, LINK };
enum { SLOTS = 8 };

struct call {
    enum engine engine;
    const uint8_t *bytes;
    size_t len;
    const struct elfmap_bytes *files;
    size_t count;
    struct elfmap_options options;
    const uint8_t *entry;
    size_t entry_len;
    const uint8_t *rules;
    size_t rules_len;
};

struct answer {
    uint32_t status;
    struct elfmap_outcome outcome;
    uint8_t *text;
};

static uint32_t called(const struct call *it, uint8_t *room, size_t size, struct elfmap_outcome *outcome) {
    switch (it->engine) {
    case SHOW:
        return elfmap_show(it->bytes, it->len, room, size, outcome);
    case REWRITE:
        return elfmap_rewrite(it->bytes, it->len, room, size, outcome);
    case MAP:
        return elfmap_map(it->files, it->count, &it->options, it->rules, it->rules_len, room, size, outcome);
    default:
        return elfmap_link(it->files, it->count, &it->options, it->entry, it->entry_len, it->rules, it->rules_len, room, size, outcome);
    }
}

static bool is_outcome(struct elfmap_outcome a, struct elfmap_outcome b) {
    return a.length == b.length && a.at == b.at && a.file == b.file && a.index == b.index && a.rule == b.rule;
}

static bool is_length_alone(struct elfmap_outcome outcome, uint64_t length) {
    struct elfmap_outcome alone = {length, 0, 0, 0, 0};
    return is_outcome(outcome, alone);
}

static bool says_something(uint32_t status) {
    return status <= ELFMAP_TOO_LONG;
}

enum { UNTOUCHED = 0xa5, BEHIND = 16 };

static bool is_untouched(const uint8_t *room, size_t size) {
    for (size_t k = 0; k < size; k++)
        if (room[k] != UNTOUCHED)
            return false;
    return true;
}

/* A call with a room of just this size, all of whose bytes were the same: they stay in `room`. */
static struct answer call_in(const struct call *it, size_t size) {
    struct answer answer;
    memset(&answer.outcome, 0x5a, sizeof answer.outcome);
    answer.text = malloc(size != 0 ? size : 1);
    if (!answer.text)
        stop("malloc");
    memset(answer.text, UNTOUCHED, size != 0 ? size : 1);
    answer.status = called(it, answer.text, size, &answer.outcome);
    check(held == 0, "all memory is given back");
    return answer;
}

/* With a room of fewer bytes than are wanted the answer is how many these are, and the room stays as it was. */
static void check_short(const struct call *it, size_t size, uint64_t wanted) {
    struct answer answer = call_in(it, size);
    check(answer.status == ELFMAP_SMALL_ROOM, "a room that is too small is reported");
    check(is_length_alone(answer.outcome, wanted), "with how long it has to be");
    check(is_untouched(answer.text, size), "and is as it was");
    free(answer.text);
}

static bool is_answer(struct answer a, struct answer b) {
    return a.status == b.status && is_outcome(a.outcome, b.outcome) && memcmp(a.text, b.text, a.outcome.length) == 0;
}

#ifndef OVER_MALLOC
/*
 * Each refusal of memory is reported, with the room as it was; or the answer is the one that is wanted, where a call asks again.
 */
static void check_refusals(const struct call *it, struct answer wanted, size_t size) {
    bool is_done = false;
    for (unsigned long k = 1; !is_done && failed < 100; k++) {
        refused = k;
        requests = 0;
        struct answer answer = call_in(it, size);
        refused = 0;
        is_done = requests < k;
        if (answer.status == ELFMAP_NO_MEMORY) {
            check(!is_done && is_length_alone(answer.outcome, 0), "a refusal of memory is reported");
            check(is_untouched(answer.text, size), "and the room is as it was");
        } else {
            check(is_answer(answer, wanted), "or a call that asks again answers the same");
        }
        free(answer.text);
    }
}
#endif

/* The answer of a call, after checks with rooms of several sizes and with refusals of memory. */
static struct answer answer_of(const struct call *it) {
    struct answer first = call_in(it, 0);
    uint64_t length = first.status == ELFMAP_SMALL_ROOM ? first.outcome.length : 0;
    if (first.status == ELFMAP_SMALL_ROOM)
        check(length > 0 && is_length_alone(first.outcome, length), "a room of no bytes is too small for some");
    else
        check(first.outcome.length == 0, "an engine that says nothing wants no room");
    free(first.text);
    struct answer answer = call_in(it, length + BEHIND);
    check(answer.outcome.length == length, "the length is the same in any room");
    check(is_untouched(answer.text + length, BEHIND), "after what is said the room is as it was");
    check(answer.status != ELFMAP_SMALL_ROOM && answer.status != ELFMAP_NO_MEMORY, "a room that is long enough suffices");
    check(says_something(answer.status) || length == 0, "without an answer nothing is said");
    struct answer exact = call_in(it, length);
    check(is_answer(exact, answer), "a room that is just as long suffices, and has the same");
    free(exact.text);
    if (length > 0) {
        check_short(it, length - 1, length);
        check_short(it, length / 2, length);
    }
#ifndef OVER_MALLOC
    check_refusals(it, answer, length);
#endif
    return answer;
}

/* ---- Made files, least significant byte first. */

enum { HEADER_SIZE = 64, SECTION_SIZE = 64, SYMBOL_SIZE = 24, ET_REL = 1, ET_EXEC = 2 };

static void put(uint8_t *at, int width, uint64_t value) {
    for (int i = 0; i < width; i++)
        at[i] = (uint8_t) (value >> (8 * i));
}

static void make_header(uint8_t *bytes, int type, uint64_t e_shoff, uint64_t sections, uint64_t name_table) {
    const uint8_t ident[] = {0x7f, 'E', 'L', 'F', 2, 1, 1};
    memset(bytes, 0, HEADER_SIZE);
    memcpy(bytes, ident, sizeof ident);
    put(bytes + 16, 2, (uint64_t) type);
    put(bytes + 18, 2, 62);
    put(bytes + 20, 4, 1);
    put(bytes + 40, 8, e_shoff);
    put(bytes + 52, 2, HEADER_SIZE);
    put(bytes + 58, 2, e_shoff ? SECTION_SIZE : 0);
    put(bytes + 60, 2, sections);
    put(bytes + 62, 2, name_table);
}

static void make_section(uint8_t *at, uint64_t name, uint64_t type, uint64_t flags, uint64_t offset, uint64_t size) {
    memset(at, 0, SECTION_SIZE);
    put(at, 4, name);
    put(at + 4, 4, type);
    put(at + 8, 8, flags);
    put(at + 24, 8, offset);
    put(at + 32, 8, size);
    put(at + 48, 8, 1);
}

/* An object of eight bytes `.text` at 64, and the symbol `start` at its fourth byte. */
static const char strings[] = "\0start";
static const char names[] = "\0.text\0.symtab\0.strtab\0.shstrtab";
enum {
    TEXT_AT = HEADER_SIZE,
    SYMBOLS_AT = TEXT_AT + 8,
    STRINGS_AT = SYMBOLS_AT + 2 * SYMBOL_SIZE,
    NAMES_AT = STRINGS_AT + sizeof strings,
    TABLE_AT = NAMES_AT + sizeof names + (8 - (NAMES_AT + sizeof names) % 8) % 8,
    OBJECT_SIZE = TABLE_AT + 5 * SECTION_SIZE
};

static void make_object(uint8_t *bytes) {
    memset(bytes, 0, OBJECT_SIZE);
    make_header(bytes, ET_REL, TABLE_AT, 5, 4);
    memset(bytes + TEXT_AT, 0xcc, 8);
    uint8_t *symbol = bytes + SYMBOLS_AT + SYMBOL_SIZE;
    put(symbol, 4, 1);
    symbol[4] = 0x12; /* STB_GLOBAL, STT_FUNC */
    put(symbol + 6, 2, 1);
    put(symbol + 8, 8, 4);
    memcpy(bytes + STRINGS_AT, strings, sizeof strings);
    memcpy(bytes + NAMES_AT, names, sizeof names);
    uint8_t *table = bytes + TABLE_AT;
    make_section(table + SECTION_SIZE, 1, 1, 6, TEXT_AT, 8);
    make_section(table + 2 * SECTION_SIZE, 7, 2, 0, SYMBOLS_AT, 2 * SYMBOL_SIZE);
    put(table + 2 * SECTION_SIZE + 40, 4, 3);
    put(table + 2 * SECTION_SIZE + 44, 4, 1);
    put(table + 2 * SECTION_SIZE + 48, 8, 8);
    put(table + 2 * SECTION_SIZE + 56, 8, SYMBOL_SIZE);
    make_section(table + 3 * SECTION_SIZE, 15, 3, 0, STRINGS_AT, sizeof strings);
    make_section(table + 4 * SECTION_SIZE, 23, 3, 0, NAMES_AT, sizeof names);
}

/* ---- Checks. */

static void check_answer(const struct call *it, uint32_t status, struct elfmap_outcome numbers, const char *text, const char *what) {
    struct answer answer = answer_of(it);
    numbers.length = strlen(text);
    bool holds = answer.status == status && is_outcome(answer.outcome, numbers) && memcmp(answer.text, text, strlen(text)) == 0;
    if (!check(holds, what))
        fprintf(stderr, "engines: %u: at %" PRIu64 " file %" PRIu64 " index %" PRIu64 " rule %u: %.*s\n", (unsigned) answer.status,
                answer.outcome.at, answer.outcome.file, answer.outcome.index, (unsigned) answer.outcome.rule, (int) answer.outcome.length,
                (const char *) answer.text);
    free(answer.text);
}

static struct call a_call(enum engine engine, const uint8_t *bytes, size_t len) {
    static const uint8_t nothing[1] = {0};
    struct call call = {engine, bytes, len, NULL, 0, {0x1000, 0x1000, 0}, nothing, 0, nothing, 0};
    return call;
}

static const struct elfmap_outcome no_numbers = {0, 0, 0, 0, 0};

static struct elfmap_outcome numbers_of(uint64_t file, unsigned rule, uint64_t index, uint64_t at) {
    struct elfmap_outcome numbers = {0, at, file, index, (uint16_t) rule};
    return numbers;
}

static void check_show(void) {
    uint8_t bytes[HEADER_SIZE];
    make_header(bytes, ET_REL, 0, 0, 0);
    struct call call = a_call(SHOW, bytes, HEADER_SIZE);
    check_answer(&call, ELFMAP_DONE, no_numbers, "file little 1 62 0x0 0x0\npart 0x0 0x40 header\n", "a header is shown");
    call.len = 63;
    check_answer(&call, ELFMAP_REFUSED, numbers_of(0, 2, 0, 63), "refused 2 63\n", "63 bytes are refused");
    call.len = 0;
    check_answer(&call, ELFMAP_REFUSED, numbers_of(0, 2, 0, 0), "refused 2 0\n", "no bytes are refused");
    call.len = HEADER_SIZE;
    bytes[3] = 'G';
    check_answer(&call, ELFMAP_REFUSED, numbers_of(0, 3, 0, 3), "refused 3 3\n", "a wrong magic number is refused");
}

/* ---- Verdicts without output. */

enum verdict { TABLES, OBJECT, LINKED };

struct found {
    uint32_t status;
    struct elfmap_outcome outcome;
    struct elfmap_fault faults[SLOTS];
};

static uint64_t first_table;
static size_t slots = SLOTS;

static struct found verdict_of(enum verdict kind, const struct call *it) {
    struct found found;
    memset(&found, UNTOUCHED, sizeof found);
    if (kind == TABLES)
        found.status = elfmap_table_verdicts(it->bytes, it->len, first_table, found.faults, slots, &found.outcome);
    else if (kind == OBJECT)
        found.status = elfmap_object_verdict(it->bytes, it->len, &found.outcome);
    else
        found.status = elfmap_link_verdict(it->files, it->count, &it->options, it->entry, it->entry_len, it->rules, it->rules_len,
                                           &found.outcome);
    check(held == 0, "all memory is given back");
    return found;
}

/* The verdict of a call; and of each refusal of memory that it says so, or the same. */
static struct found check_verdict(enum verdict kind, const struct call *it, uint32_t status, struct elfmap_outcome numbers, const char *what) {
    struct found found = verdict_of(kind, it);
    check(found.status == status && is_outcome(found.outcome, numbers), what);
#ifndef OVER_MALLOC
    bool is_done = false;
    for (unsigned long k = 1; !is_done && failed < 100; k++) {
        refused = k;
        requests = 0;
        struct found other = verdict_of(kind, it);
        refused = 0;
        is_done = requests < k;
        if (other.status == ELFMAP_NO_MEMORY) {
            check(!is_done && is_length_alone(other.outcome, 0), "a refusal of memory is reported");
            check(is_untouched((const uint8_t *) other.faults, sizeof other.faults), "and the slots are as they were");
        } else {
            check(other.status == found.status && is_outcome(other.outcome, found.outcome), "or a call that asks again answers the same");
        }
    }
#endif
    return found;
}

static bool is_fault(struct elfmap_fault fault, unsigned rule, uint64_t at) {
    return fault.rule == rule && fault.at == at;
}

static bool is_untouched_from(const struct found *found, size_t slot) {
    return is_untouched((const uint8_t *) &found->faults[slot], (SLOTS - slot) * sizeof found->faults[0]);
}

static void check_table_verdicts(void) {
    uint8_t bytes[OBJECT_SIZE];
    struct elfmap_outcome five = {5, 0, 0, 0, 0}, two = {2, 0, 0, 0, 0}, three = {3, 0, 0, 0, 0};
    make_object(bytes);
    struct call call = a_call(SHOW, bytes, OBJECT_SIZE);
    struct found found = check_verdict(TABLES, &call, ELFMAP_DONE, five, "an object of five sections has five verdicts");
    for (int k = 0; k < 5; k++)
        check(is_fault(found.faults[k], 0, 0), "none of its tables breaks a rule");
    check(is_untouched_from(&found, 5), "and the slots after them are as they were");
    bytes[SYMBOLS_AT + 7] = 1; /* a byte of symbol 0 */
    found = check_verdict(TABLES, &call, ELFMAP_DONE, five, "a broken table does not refuse the file");
    check(is_fault(found.faults[2], 45, SYMBOLS_AT + 7) && is_fault(found.faults[1], 0, 0) && is_fault(found.faults[3], 0, 0),
          "rule 45 is broken in section 2 alone");
    first_table = 2;
    found = check_verdict(TABLES, &call, ELFMAP_DONE, three, "from section 2 on there are three");
    check(is_fault(found.faults[0], 45, SYMBOLS_AT + 7) && is_fault(found.faults[1], 0, 0), "and its verdict is the first");
    slots = 2;
    found = check_verdict(TABLES, &call, ELFMAP_DONE, two, "two slots take two of them");
    check(is_untouched_from(&found, 2), "and no other slot is written");
    first_table = 5;
    check_verdict(TABLES, &call, ELFMAP_DONE, no_numbers, "after the last section there is none");
    first_table = UINT64_MAX;
    check_verdict(TABLES, &call, ELFMAP_DONE, no_numbers, "nor at the largest index");
    first_table = 0;
    slots = 0;
    found = check_verdict(TABLES, &call, ELFMAP_DONE, no_numbers, "no slots take none");
    check(is_untouched_from(&found, 0), "and are as they were");
    slots = SLOTS;
    call.len = 63;
    found = check_verdict(TABLES, &call, ELFMAP_REFUSED, numbers_of(0, 2, 0, 63), "63 bytes are refused");
    check(is_untouched_from(&found, 0), "and the slots are as they were");
}

static void check_object_verdict(void) {
    uint8_t bytes[OBJECT_SIZE];
    struct elfmap_outcome numbers = no_numbers;
    make_object(bytes);
    struct call call = a_call(REWRITE, bytes, OBJECT_SIZE);
    struct answer answer = answer_of(&call);
    numbers.length = answer.outcome.length;
    free(answer.text);
    check_verdict(OBJECT, &call, ELFMAP_DONE, numbers, "an object is as long as it is rewritten");
    put(bytes + TABLE_AT + SECTION_SIZE + 48, 8, (uint64_t) 1 << 40);
    check_verdict(OBJECT, &call, ELFMAP_TOO_LONG, no_numbers, "one that is aligned to 2^40 is too long");
    put(bytes + TABLE_AT + SECTION_SIZE + 48, 8, 1);
    put(bytes + 16, 2, ET_EXEC);
    check_verdict(OBJECT, &call, ELFMAP_REFUSED, numbers_of(0, 70, 0, 16), "a program is no object");
    bytes[4] = 1;
    check_verdict(OBJECT, &call, ELFMAP_REFUSED, numbers_of(0, 4, 0, 4), "nor is a file that is no image");
}

static void check_rewrite(void) {
    uint8_t bytes[OBJECT_SIZE];
    make_object(bytes);
    struct call call = a_call(REWRITE, bytes, OBJECT_SIZE);
    struct answer answer = answer_of(&call);
    check(answer.status == ELFMAP_DONE && answer.outcome.length >= HEADER_SIZE && memcmp(answer.text, "\177ELF", 4) == 0,
          "an object is rewritten");
    struct call second = a_call(REWRITE, answer.text, answer.outcome.length);
    struct answer again = answer_of(&second);
    check(again.status == ELFMAP_DONE && again.outcome.length == answer.outcome.length
              && memcmp(again.text, answer.text, answer.outcome.length) == 0, "and rewritten again it is the same");
    free(again.text);
    free(answer.text);
    put(bytes + 16, 2, ET_EXEC);
    check_answer(&call, ELFMAP_REFUSED, numbers_of(0, 70, 0, 16), "", "a program is no object");
    bytes[4] = 1;
    check_answer(&call, ELFMAP_REFUSED, numbers_of(0, 4, 0, 4), "", "nor is a file that is no image");
}

/* A byte that is no file. */
static const uint8_t no_file = 0;

#define MAP_LINES "output 0x1000 0x8 bits 0x6 .text\nmember 0x1000 0x8 0 0\nname 0x1004 strong start\n"
#define BYTES_LINES MAP_LINES "bytes 0 0 cccccccccccccccc\n"

static void check_map(void) {
    uint8_t bytes[OBJECT_SIZE];
    make_object(bytes);
    struct call call = a_call(MAP, bytes, OBJECT_SIZE);
    struct elfmap_bytes files[3] = {{bytes, OBJECT_SIZE}, {&no_file, 1}, {NULL, 0}};
    call.files = files;
    call.count = 1;
    check_answer(&call, ELFMAP_DONE, no_numbers, MAP_LINES, "an object is mapped");
    call.rules = (const uint8_t *) "no rule";
    call.rules_len = 7;
    check_answer(&call, ELFMAP_DONE, no_numbers, MAP_LINES, "rules that are not used are not looked at");
    call.options.uses_rules = 1;
    check_answer(&call, ELFMAP_BAD_RULES, numbers_of(0, 0, 0, 1), "", "the first line is bad");
    call.rules = (const uint8_t *) "2 pc 4 signed\n1 abs 8 wrap\n3 abs";
    call.rules_len = 32;
    check_answer(&call, ELFMAP_BAD_RULES, numbers_of(0, 0, 0, 3), "", "the third line is bad");
    call.rules_len = 27;
    check_answer(&call, ELFMAP_DONE, no_numbers, BYTES_LINES, "with rules the relocated bytes are printed");
    call.rules_len = 0;
    call.options.uses_rules = UINT32_MAX;
    check_answer(&call, ELFMAP_DONE, no_numbers, BYTES_LINES, "also with rules of no lines");
    call.options.uses_rules = 0;
    call.count = 3;
    check_answer(&call, ELFMAP_REFUSED, numbers_of(1, 2, 0, 1), "file 1 refused 2 1\n", "the second file is refused");
    files[1] = files[0];
    check_answer(&call, ELFMAP_REFUSED, numbers_of(2, 2, 0, 0), "file 2 refused 2 0\n", "then the third one is");
    call.count = 2;
    check_answer(&call, ELFMAP_NOT_LINKED, numbers_of(1, 8, 0, 0), "refused 8 1 0 0\n", "a name has two definitions");
    call.options.base = 0x1001;
    check_answer(&call, ELFMAP_NOT_LINKED, numbers_of(0, 1, 0, 0), "refused 1 0 0 0\n", "the base is no multiple of the page");
    call.count = 0;
    call.options.base = 0x1000;
    check_answer(&call, ELFMAP_DONE, no_numbers, "", "no files have no lines");
}

/* Files lie anywhere in memory, in any order, and may share bytes. */
static void check_files_apart(void) {
    uint8_t bytes[OBJECT_SIZE], later[3 * OBJECT_SIZE];
    make_object(bytes);
    make_object(later + OBJECT_SIZE);
    struct elfmap_bytes files[2] = {{later + OBJECT_SIZE, OBJECT_SIZE}, {bytes, OBJECT_SIZE}};
    struct call call = a_call(MAP, NULL, 0);
    call.files = files;
    for (size_t k = 0; k < 2; k++) {
        call.files = files + k;
        call.count = 1;
        check_answer(&call, ELFMAP_DONE, no_numbers, MAP_LINES, "an object is mapped wherever it lies");
    }
    call.files = files;
    call.count = 2;
    check_answer(&call, ELFMAP_NOT_LINKED, numbers_of(1, 8, 0, 0), "refused 8 1 0 0\n", "both define one name");
    files[1] = files[0];
    check_answer(&call, ELFMAP_NOT_LINKED, numbers_of(1, 8, 0, 0), "refused 8 1 0 0\n", "so does a file given twice");
    files[1].bytes++;
    files[1].len--;
    check_answer(&call, ELFMAP_REFUSED, numbers_of(1, 3, 0, 0), "file 1 refused 3 0\n", "the rest of a file is another file");
    files[1].len = 0;
    check_answer(&call, ELFMAP_REFUSED, numbers_of(1, 2, 0, 0), "file 1 refused 2 0\n", "no bytes anywhere are a file of none");
}

static void check_link(void) {
    uint8_t bytes[OBJECT_SIZE];
    make_object(bytes);
    struct elfmap_bytes files[2] = {{bytes, OBJECT_SIZE}, {&no_file, 1}};
    struct call call = a_call(LINK, bytes, OBJECT_SIZE);
    call.files = files;
    call.count = 1;
    call.entry = (const uint8_t *) "started";
    call.entry_len = 5;
    struct answer answer = answer_of(&call);
    struct elfmap_header header;
    struct elfmap_fault fault;
    check(answer.status == ELFMAP_DONE && elfmap_verdict(answer.text, answer.outcome.length, &fault), "an object is linked");
    check(elfmap_header(answer.text, answer.outcome.length, &header) && header.e_type == ET_EXEC && header.e_entry == 0x1004
              && header.e_phnum == 1, "with its entry and a segment");
    free(answer.text);
    call.entry_len = 7;
    check_answer(&call, ELFMAP_NOT_LINKED, numbers_of(0, 10, 0, 0), "", "there is no such entry");
    call.entry_len = 5;
    call.options.base = 0;
    call.options.page = UINT64_C(1) << 31;
    check_answer(&call, ELFMAP_TOO_LONG, no_numbers, "", "a segment at 2^31 is too far");
    call.count = 2;
    check_answer(&call, ELFMAP_REFUSED, numbers_of(1, 2, 0, 1), "", "the second file is refused");
    call.rules = (const uint8_t *) "2 pc 4 signed";
    call.rules_len = 13;
    check_answer(&call, ELFMAP_BAD_RULES, numbers_of(0, 0, 0, 1), "", "a line without its end is bad");
}

static void check_link_verdict(void) {
    uint8_t bytes[OBJECT_SIZE];
    make_object(bytes);
    struct elfmap_bytes files[2] = {{bytes, OBJECT_SIZE}, {&no_file, 1}};
    struct call call = a_call(LINK, bytes, OBJECT_SIZE);
    call.files = files;
    call.count = 1;
    check_verdict(LINKED, &call, ELFMAP_DONE, no_numbers, "an object links, and no entry is asked for");
    call.entry = (const uint8_t *) "started";
    call.entry_len = 5;
    check_verdict(LINKED, &call, ELFMAP_DONE, no_numbers, "it links with its entry");
    call.entry_len = 7;
    check_verdict(LINKED, &call, ELFMAP_NOT_LINKED, numbers_of(0, 10, 0, 0), "there is no such entry");
    call.options.base = 1;
    check_verdict(LINKED, &call, ELFMAP_NOT_LINKED, numbers_of(0, 1, 0, 0), "a base that is no multiple of the page is refused first");
    call.options.base = 0;
    call.options.page = UINT64_C(1) << 31;
    call.entry_len = 5;
    check_verdict(LINKED, &call, ELFMAP_DONE, no_numbers, "how long the executable is does not count");
    call.count = 2;
    check_verdict(LINKED, &call, ELFMAP_REFUSED, numbers_of(1, 2, 0, 1), "the second file is refused");
    call.rules = (const uint8_t *) "2 pc 4 signed";
    call.rules_len = 13;
    check_verdict(LINKED, &call, ELFMAP_REFUSED, numbers_of(1, 2, 0, 1), "rules that are not asked for are not read");
    call.options.uses_rules = 1;
    check_verdict(LINKED, &call, ELFMAP_BAD_RULES, numbers_of(0, 0, 0, 1), "a line without its end is bad");
}

#include "link_places.h"

/* Bytes that are one too many for a file: none of them is looked at. */
static void check_too_many(void) {
    const size_t len = (UINT64_C(1) << 30) + 1;
    uint8_t *bytes = mmap(NULL, len, PROT_NONE, MAP_PRIVATE | MAP_ANONYMOUS | MAP_NORESERVE, -1, 0);
    if (bytes == MAP_FAILED)
        stop("mmap");
    const struct elfmap_bytes whole = {bytes, len};
    const struct elfmap_outcome numbers = numbers_of(0, 1, 0, UINT64_C(1) << 30);
    struct call call = a_call(SHOW, bytes, len);
    call.files = &whole;
    call.count = 1;
    check_answer(&call, ELFMAP_REFUSED, numbers, "refused 1 1073741824\n", "too long a file is refused by show");
    call.engine = REWRITE;
    check_answer(&call, ELFMAP_REFUSED, numbers, "", "by rewrite");
    call.engine = MAP;
    check_answer(&call, ELFMAP_REFUSED, numbers, "file 0 refused 1 1073741824\n", "by map");
    call.engine = LINK;
    check_answer(&call, ELFMAP_REFUSED, numbers, "", "by link");
    check_verdict(TABLES, &call, ELFMAP_REFUSED, numbers, "by the verdicts on tables");
    check_verdict(OBJECT, &call, ELFMAP_REFUSED, numbers, "by that on an object");
    check_verdict(LINKED, &call, ELFMAP_REFUSED, numbers, "and by that on a link");
    munmap(bytes, len);
}

static bool is_refused_as_short(uint32_t status, struct elfmap_outcome outcome) {
    return status == ELFMAP_REFUSED && outcome.rule == 2 && outcome.at == 0 && outcome.file == 0 && outcome.length == 0;
}

/* Null, with a length of 0, is a file of no bytes, no files, no rules, an empty name, and a buffer of no bytes. */
static void check_null(void) {
    const struct elfmap_options options = {0x400000, 0x1000, 1};
    uint8_t bytes[HEADER_SIZE];
    struct elfmap_outcome outcome;
    check(elfmap_show(NULL, 0, NULL, 0, &outcome) == ELFMAP_SMALL_ROOM && outcome.length == 12, "null is shown as no bytes are");
    uint32_t status = elfmap_table_verdicts(NULL, 0, 0, NULL, 0, &outcome);
    check(is_refused_as_short(status, outcome), "it has no tables");
    status = elfmap_rewrite(NULL, 0, NULL, 0, &outcome);
    check(is_refused_as_short(status, outcome), "it is not rewritten");
    status = elfmap_object_verdict(NULL, 0, &outcome);
    check(is_refused_as_short(status, outcome), "and is no object");
    check(elfmap_map(NULL, 0, &options, NULL, 0, NULL, 0, &outcome) == ELFMAP_DONE && outcome.length == 0, "no files have an empty map");
    check(elfmap_link(NULL, 0, &options, NULL, 0, NULL, 0, NULL, 0, &outcome) == ELFMAP_NOT_LINKED && outcome.rule == 10,
          "and no entry");
    check(elfmap_link_verdict(NULL, 0, &options, NULL, 0, NULL, 0, &outcome) == ELFMAP_DONE, "but they link without one");
    make_header(bytes, ET_REL, 0, 0, 0);
    check(elfmap_show(bytes, HEADER_SIZE, NULL, 0, &outcome) == ELFMAP_SMALL_ROOM && outcome.length > 0, "null is a buffer that is too small");
    check(elfmap_table_verdicts(bytes, HEADER_SIZE, 0, NULL, 0, &outcome) == ELFMAP_DONE && outcome.length == 0, "and takes no verdicts");
}

#ifndef OVER_MALLOC
/* ---- A room that is too small costs no memory for what is said. */

/* A room of this size: how much memory is taken at most, and that the length is this one. */
static size_t memory_in(const struct call *it, size_t size, uint32_t status, uint64_t length, const char *what) {
    most = 0;
    struct answer answer = call_in(it, size);
    check(answer.status == status && answer.outcome.length == length, what);
    free(answer.text);
    return most;
}

/* The engine says more than 4 MB, with little memory beside: a room that is too small takes no more than a MB. */
static void check_memory(const struct call *it, const char *what) {
    struct answer answer = call_in(it, 0);
    uint64_t length = answer.outcome.length;
    free(answer.text);
    check(length > 4000000, what);
    check(memory_in(it, 0, ELFMAP_SMALL_ROOM, length, what) < 1000000, what);
    check(memory_in(it, 1000, ELFMAP_SMALL_ROOM, length, what) < 1000000, what);
    check(memory_in(it, 100000, ELFMAP_SMALL_ROOM, length, what) < 1000000, what);
    check(memory_in(it, length - 1, ELFMAP_SMALL_ROOM, length, what) < 2 * length + 1000000, what);
    check(memory_in(it, length, ELFMAP_DONE, length, what) >= length, what);
}

/* An object with many global symbols in its text, whose names are one name without its first bytes. Its end is that of make_object. */
enum { MANY = 1500, MANY_NAME = 5000, MANY_SIZE = OBJECT_SIZE + MANY * SYMBOL_SIZE + MANY_NAME };

static void make_many(uint8_t *bytes) {
    uint8_t object[OBJECT_SIZE];
    make_object(object);
    memset(bytes, 0, MANY_SIZE);
    size_t symbols_len = (size_t) (MANY + 1) * SYMBOL_SIZE;
    size_t strings_at = SYMBOLS_AT + symbols_len, names_at = strings_at + MANY_NAME + 1;
    size_t table_at = names_at + sizeof names + (8 - (names_at + sizeof names) % 8) % 8;
    memcpy(bytes, object, SYMBOLS_AT + SYMBOL_SIZE);
    put(bytes + 40, 8, table_at);
    for (size_t k = 0; k < MANY; k++) {
        uint8_t *symbol = bytes + SYMBOLS_AT + (k + 1) * SYMBOL_SIZE;
        memcpy(symbol, object + SYMBOLS_AT + SYMBOL_SIZE, SYMBOL_SIZE);
        put(symbol, 4, k + 1);
    }
    memset(bytes + strings_at + 1, 'n', MANY_NAME - 1);
    memcpy(bytes + names_at, names, sizeof names);
    uint8_t *table = bytes + table_at;
    memcpy(table, object + TABLE_AT, 5 * SECTION_SIZE);
    put(table + 2 * SECTION_SIZE + 32, 8, symbols_len);
    put(table + 3 * SECTION_SIZE + 24, 8, strings_at);
    put(table + 3 * SECTION_SIZE + 32, 8, MANY_NAME + 1);
    put(table + 4 * SECTION_SIZE + 24, 8, names_at);
}

static void check_small_rooms(void) {
    uint8_t *bytes = malloc(MANY_SIZE);
    if (!bytes)
        stop("malloc");
    make_many(bytes);
    struct elfmap_bytes file = {bytes, MANY_SIZE};
    struct call call = a_call(SHOW, bytes, MANY_SIZE);
    check_memory(&call, "long lines of symbols are not kept by show");
    call.engine = MAP;
    call.files = &file;
    call.count = 1;
    check_memory(&call, "nor are long names by map");
    make_object(bytes);
    file.len = OBJECT_SIZE;
    call.len = OBJECT_SIZE;
    call.engine = LINK;
    call.entry = (const uint8_t *) "start";
    call.entry_len = 5;
    call.options.base = 0;
    call.options.page = UINT64_C(1) << 23;
    check_memory(&call, "nor a file with 8 MB of zeros by link");
    free(bytes);
}
#endif

/* ---- What an engine answers for files. */

/* Appends the bytes of a file to those that are there. */
static void read_after(const char *path, uint8_t **bytes, size_t *len) {
    FILE *file = fopen(path, "rb");
    if (!file || fseek(file, 0, SEEK_END) != 0)
        stop(path);
    long size = ftell(file);
    *bytes = size < 0 ? NULL : realloc(*bytes, *len + (size_t) size + 1);
    rewind(file);
    if (!*bytes || fread(*bytes + *len, 1, (size_t) size, file) != (size_t) size)
        stop(path);
    fclose(file);
    *len += (size_t) size;
}

/* A number in decimal, or in hexadecimal after 0x. */
static uint64_t number_of(const char *word) {
    return strtoull(word, NULL, strncmp(word, "0x", 2) == 0 ? 16 : 10);
}

static int run_engine(int count, char **words) {
    static const char *const engines[] = {"show", "rewrite", "map", "link"};
    uint8_t *rules = malloc(1);
    struct elfmap_bytes *files = malloc((size_t) count * sizeof *files);
    if (!files || !rules)
        stop("malloc");
    struct call call = a_call(SHOW, NULL, 0);
    while (strcmp(engines[call.engine], words[1]) != 0)
        if (++call.engine > LINK)
            stop(words[1]);
    int first = call.engine == LINK ? 6 : call.engine == MAP ? 5 : 2;
    if (call.engine >= MAP) {
        const char *path = words[first - 1];
        call.options.base = number_of(words[2]);
        call.options.page = number_of(words[3]);
        call.options.uses_rules = strcmp(path, "-") != 0;
        if (call.options.uses_rules)
            read_after(path, &rules, &call.rules_len);
        call.rules = rules;
        call.entry = (const uint8_t *) words[4];
        call.entry_len = call.engine == LINK ? strlen(words[4]) : 0;
    }
    for (int k = first; k < count; k++, call.count++) {
        uint8_t *file = NULL;
        files[call.count].len = 0;
        read_after(words[k], &file, &files[call.count].len);
        files[call.count].bytes = file;
    }
    call.bytes = call.count > 0 ? files[0].bytes : NULL;
    call.len = call.count > 0 ? files[0].len : 0;
    call.files = files;
    struct answer answer = answer_of(&call);
    printf("%u %" PRIu64 " %" PRIu64 " %" PRIu64 " %" PRIu64 " %u\n", (unsigned) answer.status, answer.outcome.length, answer.outcome.at,
           answer.outcome.file, answer.outcome.index, (unsigned) answer.outcome.rule);
    fwrite(answer.text, 1, answer.outcome.length, stdout);
    free(answer.text);
    for (size_t k = 0; k < call.count; k++)
        free((uint8_t *) files[k].bytes);
    free(files);
    free(rules);
    return failed == 0 ? 0 : 1;
}

int main(int count, char **words) {
    if (count > 2)
        return run_engine(count, words);
    check_show();
    check_table_verdicts();
    check_rewrite();
    check_object_verdict();
    check_map();
    check_files_apart();
    check_link();
    check_link_verdict();
    check_link_places();
    check_too_many();
    check_null();
#ifndef OVER_MALLOC
    check_small_rooms();
#endif
    printf("%d passed, %d failed\n", passed, failed);
    return failed == 0 ? 0 : 1;
}
