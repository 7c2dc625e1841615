"use strict";
// What include/elfmap.h declares. Made by `tools/release tables` from it, not edited by hand.

const ELFMAP = {
    // The version of this header, a `uint64_t`: 1,000,000 MAJOR + 1,000 MINOR + PATCH, so 1000 is
    // 0.1.0. Of versions with the same MAJOR the later one has all calls of the earlier one.
    VERSION: 1000,
    // In place of a rule's number, in a `uint16_t`: the buffer has too few items. No rule has this
    // number.
    SHORT_ROOM: 0,
    // The ELF header.
    HEADER: 0,
    // The section header table.
    SECTION_HEADERS: 1,
    // The program header table.
    PROGRAM_HEADERS: 2,
    // The content of section 0; that of section i is ELFMAP_CONTENTS + i.
    CONTENTS: 3,
    // In place of an owner, in a `uint64_t`: the part is a gap, which belongs to nothing.
    GAP: 0xffffffffffffffffn,
    // Nothing is refused.
    DONE: 0,
    // File `file` breaks rule `rule`, lowest at the offset `at`, and no file before it breaks any.
    REFUSED: 1,
    // The files do not link: rule `rule` of the link is broken, first at entry `at` of `index` of
    // file `file`.
    NOT_LINKED: 2,
    // The output would be longer than 2^30 bytes, or have 0xffff segments or more.
    TOO_LONG: 3,
    // The buffer is too small: it has to be `length` bytes long.
    SMALL_ROOM: 4,
    // Out of memory.
    NO_MEMORY: 5,
    // Line `at` of the relocation rules is bad, and none before it; lines count from 1.
    BAD_RULES: 6,
};
