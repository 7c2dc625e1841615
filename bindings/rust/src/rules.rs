//! The rules by their names. Made by `tools/release tables` from docs/RULES.md.

/// Rule 1: the file is refused because it is longer than 2^30 bytes.
pub const TOO_LONG: u16 = 1;

/// Rule 2: the file is refused because it is shorter than an ELF header, 64 bytes.
pub const TOO_SHORT: u16 = 2;

/// Rule 3: the file is refused because a byte of the magic number (7f 45 4c 46) is wrong.
pub const WRONG_MAGIC: u16 = 3;

/// Rule 4: the file is refused because its class isn't 2, for 64-bit objects.
pub const WRONG_CLASS: u16 = 4;

/// Rule 5: the file is refused because its data encoding is neither 1 (little-endian) nor 2
/// (big-endian).
pub const WRONG_DATA: u16 = 5;

/// Rule 6: the file is refused because the version in its identification isn't 1.
pub const WRONG_IDENT_VERSION: u16 = 6;

/// Rule 7: the file is refused because `e_version` isn't 1.
pub const WRONG_VERSION: u16 = 7;

/// Rule 8: the file is refused because `e_ehsize` isn't 64.
pub const WRONG_HEADER_SIZE: u16 = 8;

/// Rule 9: the file is refused because `e_shoff` is 0, and `e_shnum` or `e_shstrndx` isn't.
pub const COUNT_WITHOUT_SECTION_TABLE: u16 = 9;

/// Rule 10: the file is refused because there is a section header table, and `e_shentsize`
/// isn't 64.
pub const WRONG_SECTION_HEADER_SIZE: u16 = 10;

/// Rule 11: the file is refused because `e_shnum` is 0xff00 or more.
pub const RESERVED_SECTION_COUNT: u16 = 11;

/// Rule 12: the file is refused because there is a section header table, and section header 0
/// passes the end of the file.
pub const FIRST_SECTION_HEADER_PAST_END: u16 = 12;

/// Rule 13: the file is refused because a field of section header 0 other than `sh_size`,
/// `sh_link` and `sh_info` isn't 0.
pub const FIRST_SECTION_HEADER_NOT_NULL: u16 = 13;

/// Rule 14: the file is refused because `e_shnum` isn't 0 and section header 0 has a count
/// too, or `e_shnum` is 0 and that count is below 0xff00.
pub const WRONG_EXTENDED_SECTION_COUNT: u16 = 14;

/// Rule 15: the file is refused because the section header table passes the end of the file.
pub const SECTION_TABLE_PAST_END: u16 = 15;

/// Rule 16: the file is refused because `e_shstrndx` is neither 0xffff nor below both 0xff00
/// and n.
pub const WRONG_NAME_TABLE_INDEX: u16 = 16;

/// Rule 17: the file is refused because `e_shstrndx` is 0xffff and the index in section
/// header 0 is below 0xff00 or not below n, or it isn't and that index isn't 0.
pub const WRONG_EXTENDED_NAME_TABLE_INDEX: u16 = 17;

/// Rule 18: the file is refused because just one of `e_phoff` and `e_phnum` is 0, or
/// `e_phnum` is 0xffff and there is no section header 0.
pub const WRONG_SEGMENT_COUNT: u16 = 18;

/// Rule 19: the file is refused because `e_phnum` isn't 0, and `e_phentsize` isn't 56.
pub const WRONG_PROGRAM_HEADER_SIZE: u16 = 19;

/// Rule 20: the file is refused because `e_phnum` is 0xffff and the count in section header 0
/// is below 0xffff, or it isn't and that count isn't 0.
pub const WRONG_EXTENDED_SEGMENT_COUNT: u16 = 20;

/// Rule 21: the file is refused because the program header table passes the end of the file.
pub const PROGRAM_TABLE_PAST_END: u16 = 21;

/// Rule 22: the file is refused because `sh_addralign` is neither 0 nor a power of two.
pub const WRONG_SECTION_ALIGNMENT: u16 = 22;

/// Rule 23: the file is refused because `sh_addralign` is above 1 and `sh_addr` is no
/// multiple of it.
pub const MISALIGNED_SECTION: u16 = 23;

/// Rule 24: the file is refused because a section that isn't NOBITS has bytes, and its last
/// one lies past the end of the file.
pub const CONTENT_PAST_END: u16 = 24;

/// Rule 25: the file is refused because a segment has bytes in the file, and its last one
/// lies past the end of the file.
pub const SEGMENT_PAST_END: u16 = 25;

/// Rule 26: the file is refused because `p_filesz` is above `p_memsz`.
pub const FILE_SIZE_ABOVE_MEMORY_SIZE: u16 = 26;

/// Rule 27: the file is refused because `p_align` is neither 0 nor a power of two.
pub const WRONG_SEGMENT_ALIGNMENT: u16 = 27;

/// Rule 28: the file is refused because `p_align` is above 1, and `p_vaddr` and `p_offset`
/// differ modulo it.
pub const INCONGRUENT_SEGMENT: u16 = 28;

/// Rule 29: the file is refused because `p_vaddr` is below that of the loadable segment
/// before it.
pub const LOAD_OUT_OF_ORDER: u16 = 29;

/// Rule 30: the file is refused because the name table's type isn't STRTAB.
pub const WRONG_NAME_TABLE_TYPE: u16 = 30;

/// Rule 31: the file is refused because the name table has bytes, and the first or the last
/// one isn't 0.
pub const UNCLOSED_NAME_TABLE: u16 = 31;

/// Rule 32: the file is refused because `sh_name` is not below the size of the name table (0
/// is allowed where there is no name table, or an empty one).
pub const NAME_PAST_END: u16 = 32;

/// Rule 33: the file is refused because a byte lies in two of these: the ELF header, the two
/// tables, and the contents of sections (neither NULL nor NOBITS).
pub const SHARED_BYTE: u16 = 33;

/// Rule 40: the table is refused because the section is not of a type that holds such a table
/// (symbols: SYMTAB or DYNSYM; strings: STRTAB; relocations: REL or RELA; groups: GROUP;
/// notes: NOTE; dynamic arrays: DYNAMIC; hash tables: HASH).
pub const WRONG_TABLE_TYPE: u16 = 40;

/// Rule 41: the table is refused because the string table has bytes, and the first or the
/// last one isn't 0.
pub const UNCLOSED_STRING_TABLE: u16 = 41;

/// Rule 42: the table is refused because `sh_entsize` isn't the size of an entry (symbols and
/// RELA: 24; REL and dynamic arrays: 16; groups and hash tables: 4).
pub const WRONG_ENTRY_SIZE: u16 = 42;

/// Rule 43: the table is refused because `sh_size` is no multiple of the entry's size.
pub const PARTIAL_ENTRY: u16 = 43;

/// Rule 44: the table is refused because `sh_link` is no section's index, or that of a
/// section of another type than the table links to (symbols and dynamic arrays: STRTAB;
/// relocations and hash tables: SYMTAB or DYNSYM; groups: SYMTAB).
pub const WRONG_LINK: u16 = 44;

/// Rule 45: the table is refused because there is no symbol 0, or a byte of it isn't 0.
pub const SYMBOL_0_NOT_NULL: u16 = 45;

/// Rule 46: the table is refused because `sh_info`, the index of the first symbol that is not
/// local, is 0 or above the number of symbols.
pub const WRONG_LOCAL_COUNT: u16 = 46;

/// Rule 47: the table is refused because a symbol below that index is not local, or one from
/// it on is.
pub const MISPLACED_BINDING: u16 = 47;

/// Rule 48: the table is refused because `st_name` isn't 0 and not below the size of the
/// string table.
pub const SYMBOL_NAME_PAST_END: u16 = 48;

/// Rule 49: the table is refused because a section of type SYMTAB_SHNDX links to the symbol
/// table, and a lower one does too.
pub const SECOND_INDEX_TABLE: u16 = 49;

/// Rule 50: the table is refused because the index table has not one word of four bytes for
/// each symbol, or its `sh_entsize` isn't 4.
pub const WRONG_INDEX_TABLE_SIZE: u16 = 50;

/// Rule 51: the table is refused because `st_shndx` is 0xffff and there is no index table, or
/// it is below 0xff00 and no section's index.
pub const WRONG_SYMBOL_SECTION: u16 = 51;

/// Rule 52: the table is refused because a word of the index table isn't 0 though the
/// symbol's `st_shndx` isn't 0xffff, or it is, and the word is below 0xff00 or no section's
/// index.
pub const WRONG_INDEX_WORD: u16 = 52;

/// Rule 53: the table is refused because `sh_info` of a relocation section is no section's
/// index.
pub const WRONG_TARGET: u16 = 53;

/// Rule 54: the table is refused because a relocation's symbol is not below the number of
/// symbols.
pub const WRONG_RELOCATION_SYMBOL: u16 = 54;

/// Rule 55: the table is refused because `sh_size` of a section group is 0.
pub const EMPTY_GROUP: u16 = 55;

/// Rule 56: the table is refused because a group's flags are neither 0 nor 1.
pub const WRONG_GROUP_FLAGS: u16 = 56;

/// Rule 57: the table is refused because `sh_info` of a group is 0 or not below the number of
/// symbols.
pub const WRONG_SIGNATURE: u16 = 57;

/// Rule 58: the table is refused because a member of a group is not above i, no section's
/// index, named before in the group, or a section without the flag GROUP.
pub const WRONG_MEMBER: u16 = 58;

/// Rule 59: the table is refused because fewer than 12 bytes are left where a note begins.
pub const PARTIAL_NOTE: u16 = 59;

/// Rule 60: the table is refused because the padded name of a note passes the end.
pub const NOTE_NAME_PAST_END: u16 = 60;

/// Rule 61: the table is refused because the padded descriptor of a note passes the end.
pub const NOTE_DESC_PAST_END: u16 = 61;

/// Rule 62: the table is refused because a note's `namesz` isn't 0, and the name's last byte
/// isn't 0.
pub const UNCLOSED_NOTE_NAME: u16 = 62;

/// Rule 63: the table is refused because no entry of a dynamic section has the tag NULL.
pub const NO_NULL_ENTRY: u16 = 63;

/// Rule 64: the table is refused because the value of an entry NEEDED, SONAME, RPATH or
/// RUNPATH before that one is not below the size of the string table.
pub const DYNAMIC_STRING_PAST_END: u16 = 64;

/// Rule 65: the table is refused because `sh_size` of a hash table is below 8, or not that of
/// two words, its buckets and its chain words.
pub const WRONG_HASH_SIZE: u16 = 65;

/// Rule 66: the table is refused because there is no bucket; or there is not one chain word
/// for each symbol.
pub const WRONG_HASH_COUNT: u16 = 66;

/// Rule 67: the table is refused because the word of a bucket, or a chain word, is not below
/// the number of chain words.
pub const HASH_WORD_PAST_END: u16 = 67;

/// Rule 68: the table is refused because the chain of a bucket comes back to one of its
/// symbols.
pub const ENDLESS_CHAIN: u16 = 68;

/// Rule 69: the table is refused because a symbol from 1 on is not on the chain of its name's
/// bucket.
pub const SYMBOL_OFF_CHAIN: u16 = 69;

/// Rule 70: the file is refused because `e_type` isn't REL.
pub const NOT_RELOCATABLE: u16 = 70;

/// Rule 71: the file is refused because `e_entry` isn't 0; or `e_phnum` isn't.
pub const LOADABLE: u16 = 71;

/// Rule 72: the file is refused because a section is of type HASH, DYNAMIC, SHLIB or DYNSYM.
pub const FOREIGN_SECTION: u16 = 72;

/// Rule 73: the file is refused because a section is of type SYMTAB, and a lower one is too.
pub const SECOND_SYMBOL_TABLE: u16 = 73;

/// Rule 74: the file is refused because a section of type SYMTAB_SHNDX isn't linked to the
/// symbol table.
pub const STRAY_INDEX_TABLE: u16 = 74;

/// Rule 75: the file is refused because a symbol is defined in a section that is left out, or
/// at a reserved index but the absolute and the common one.
pub const SYMBOL_OUTSIDE: u16 = 75;

/// Rule 76: the file is refused because `sh_info` of a relocation section is that of one that
/// is left out, or has no bits (NOBITS, relocations, groups).
pub const WRONG_RELOCATION_TARGET: u16 = 76;

/// Rule 77: the file is refused because a member of a group is left out, or a group itself,
/// or a member of a group of a lower index.
pub const WRONG_GROUP_MEMBER: u16 = 77;

/// Rule 78: the file is refused because `sh_link` of a plain section isn't 0, and that
/// section is left out or isn't there.
pub const WRONG_KEPT_LINK: u16 = 78;

/// Rule 79: the file is refused because a plain section has the flag INFO_LINK, and the
/// section of `sh_info` is left out or isn't there.
pub const WRONG_KEPT_INFO: u16 = 79;

/// The rules of a link of objects.
pub mod link {
    /// Rule 1: the link is refused because the page is no power of two, or the base no
    /// multiple of it.
    pub const BAD_OPTIONS: u16 = 1;

    /// Rule 2: the link is refused because a file's byte order, machine or flags are not
    /// those of file 0.
    pub const MISMATCH: u16 = 2;

    /// Rule 3: the link is refused because a live section has the flag TLS.
    pub const TLS: u16 = 3;

    /// Rule 4: the link is refused because a live section has the flag LINK_ORDER.
    pub const LINK_ORDER: u16 = 4;

    /// Rule 5: the link is refused because the signature symbol of a COMDAT group has no
    /// name.
    pub const EMPTY_SIGNATURE: u16 = 5;

    /// Rule 6: the link is refused because a symbol's binding is above WEAK, its type is TLS,
    /// or it is not local and has no name.
    pub const BAD_SYMBOL: u16 = 6;

    /// Rule 7: the link is refused because a common is not GLOBAL, or its value, the
    /// alignment, is no power of two.
    pub const BAD_COMMON: u16 = 7;

    /// Rule 8: the link is refused because a GLOBAL definition comes after another one of its
    /// name.
    pub const TWO_DEFINITIONS: u16 = 8;

    /// Rule 9: the link is refused because a GLOBAL entry is undefined, or in a discarded
    /// section, and its name has no definition and no common.
    pub const UNDEFINED_NAME: u16 = 9;

    /// Rule 10: the link is refused because the name of the entry point is bound to nothing,
    /// to zero, or to a definition in a section that is not live, or its value is 2^64 or
    /// more.
    pub const NO_ENTRY: u16 = 10;

    /// Rule 11: the link is refused because the address after the last byte of a section or
    /// common is 2^64 or more, so that the last address is never used.
    pub const ADDRESS_OVERFLOW: u16 = 11;

    /// Rule 12: the link is refused because an applied entry is of a kind that the list has
    /// no rule for.
    pub const NO_RULE: u16 = 12;

    /// Rule 13: the link is refused because the symbol of a field has no value: it is local,
    /// and undefined or in a section that is not live; or it is not local, and the definition
    /// that its name is bound to is in such a section.
    pub const UNPLACED: u16 = 13;

    /// Rule 14: the link is refused because a field passes the end of its target.
    pub const FIELD_OUT_OF_RANGE: u16 = 14;

    /// Rule 15: the link is refused because a field shares a byte with that of an entry
    /// before it, by file, section and entry.
    pub const FIELDS_OVERLAP: u16 = 15;

    /// Rule 16: the link is refused because the range of the rule does not admit the number:
    /// in a field of n bits, `signed` admits -2^(n-1) to 2^(n-1) - 1, `unsigned` 0 to 2^n -
    /// 1, `wrap` every number.
    pub const VALUE_OUT_OF_RANGE: u16 = 16;
}

// The number, the name and the sentence of each rule, by ascending numbers: of files, and of links.
#[rustfmt::skip]
pub(crate) const TABLE: [(u16, &str, &str); 73] = [
    (
        1,
        "TOO_LONG",
        "the file is refused because it is longer than 2^30 bytes",
    ),
    (
        2,
        "TOO_SHORT",
        "the file is refused because it is shorter than an ELF header, 64 bytes",
    ),
    (
        3,
        "WRONG_MAGIC",
        "the file is refused because a byte of the magic number (7f 45 4c 46) is \
         wrong",
    ),
    (
        4,
        "WRONG_CLASS",
        "the file is refused because its class isn't 2, for 64-bit objects",
    ),
    (
        5,
        "WRONG_DATA",
        "the file is refused because its data encoding is neither 1 (little-endian) \
         nor 2 (big-endian)",
    ),
    (
        6,
        "WRONG_IDENT_VERSION",
        "the file is refused because the version in its identification isn't 1",
    ),
    (
        7,
        "WRONG_VERSION",
        "the file is refused because `e_version` isn't 1",
    ),
    (
        8,
        "WRONG_HEADER_SIZE",
        "the file is refused because `e_ehsize` isn't 64",
    ),
    (
        9,
        "COUNT_WITHOUT_SECTION_TABLE",
        "the file is refused because `e_shoff` is 0, and `e_shnum` or `e_shstrndx` \
         isn't",
    ),
    (
        10,
        "WRONG_SECTION_HEADER_SIZE",
        "the file is refused because there is a section header table, and \
         `e_shentsize` isn't 64",
    ),
    (
        11,
        "RESERVED_SECTION_COUNT",
        "the file is refused because `e_shnum` is 0xff00 or more",
    ),
    (
        12,
        "FIRST_SECTION_HEADER_PAST_END",
        "the file is refused because there is a section header table, and section \
         header 0 passes the end of the file",
    ),
    (
        13,
        "FIRST_SECTION_HEADER_NOT_NULL",
        "the file is refused because a field of section header 0 other than \
         `sh_size`, `sh_link` and `sh_info` isn't 0",
    ),
    (
        14,
        "WRONG_EXTENDED_SECTION_COUNT",
        "the file is refused because `e_shnum` isn't 0 and section header 0 has a \
         count too, or `e_shnum` is 0 and that count is below 0xff00",
    ),
    (
        15,
        "SECTION_TABLE_PAST_END",
        "the file is refused because the section header table passes the end of the \
         file",
    ),
    (
        16,
        "WRONG_NAME_TABLE_INDEX",
        "the file is refused because `e_shstrndx` is neither 0xffff nor below both \
         0xff00 and n",
    ),
    (
        17,
        "WRONG_EXTENDED_NAME_TABLE_INDEX",
        "the file is refused because `e_shstrndx` is 0xffff and the index in section \
         header 0 is below 0xff00 or not below n, or it isn't and that index isn't 0",
    ),
    (
        18,
        "WRONG_SEGMENT_COUNT",
        "the file is refused because just one of `e_phoff` and `e_phnum` is 0, or \
         `e_phnum` is 0xffff and there is no section header 0",
    ),
    (
        19,
        "WRONG_PROGRAM_HEADER_SIZE",
        "the file is refused because `e_phnum` isn't 0, and `e_phentsize` isn't 56",
    ),
    (
        20,
        "WRONG_EXTENDED_SEGMENT_COUNT",
        "the file is refused because `e_phnum` is 0xffff and the count in section \
         header 0 is below 0xffff, or it isn't and that count isn't 0",
    ),
    (
        21,
        "PROGRAM_TABLE_PAST_END",
        "the file is refused because the program header table passes the end of the \
         file",
    ),
    (
        22,
        "WRONG_SECTION_ALIGNMENT",
        "the file is refused because `sh_addralign` is neither 0 nor a power of two",
    ),
    (
        23,
        "MISALIGNED_SECTION",
        "the file is refused because `sh_addralign` is above 1 and `sh_addr` is no \
         multiple of it",
    ),
    (
        24,
        "CONTENT_PAST_END",
        "the file is refused because a section that isn't NOBITS has bytes, and its \
         last one lies past the end of the file",
    ),
    (
        25,
        "SEGMENT_PAST_END",
        "the file is refused because a segment has bytes in the file, and its last \
         one lies past the end of the file",
    ),
    (
        26,
        "FILE_SIZE_ABOVE_MEMORY_SIZE",
        "the file is refused because `p_filesz` is above `p_memsz`",
    ),
    (
        27,
        "WRONG_SEGMENT_ALIGNMENT",
        "the file is refused because `p_align` is neither 0 nor a power of two",
    ),
    (
        28,
        "INCONGRUENT_SEGMENT",
        "the file is refused because `p_align` is above 1, and `p_vaddr` and \
         `p_offset` differ modulo it",
    ),
    (
        29,
        "LOAD_OUT_OF_ORDER",
        "the file is refused because `p_vaddr` is below that of the loadable segment \
         before it",
    ),
    (
        30,
        "WRONG_NAME_TABLE_TYPE",
        "the file is refused because the name table's type isn't STRTAB",
    ),
    (
        31,
        "UNCLOSED_NAME_TABLE",
        "the file is refused because the name table has bytes, and the first or the \
         last one isn't 0",
    ),
    (
        32,
        "NAME_PAST_END",
        "the file is refused because `sh_name` is not below the size of the name \
         table (0 is allowed where there is no name table, or an empty one)",
    ),
    (
        33,
        "SHARED_BYTE",
        "the file is refused because a byte lies in two of these: the ELF header, the \
         two tables, and the contents of sections (neither NULL nor NOBITS)",
    ),
    (
        40,
        "WRONG_TABLE_TYPE",
        "the table is refused because the section is not of a type that holds such a \
         table (symbols: SYMTAB or DYNSYM; strings: STRTAB; relocations: REL or RELA; \
         groups: GROUP; notes: NOTE; dynamic arrays: DYNAMIC; hash tables: HASH)",
    ),
    (
        41,
        "UNCLOSED_STRING_TABLE",
        "the table is refused because the string table has bytes, and the first or \
         the last one isn't 0",
    ),
    (
        42,
        "WRONG_ENTRY_SIZE",
        "the table is refused because `sh_entsize` isn't the size of an entry \
         (symbols and RELA: 24; REL and dynamic arrays: 16; groups and hash tables: \
         4)",
    ),
    (
        43,
        "PARTIAL_ENTRY",
        "the table is refused because `sh_size` is no multiple of the entry's size",
    ),
    (
        44,
        "WRONG_LINK",
        "the table is refused because `sh_link` is no section's index, or that of a \
         section of another type than the table links to (symbols and dynamic arrays: \
         STRTAB; relocations and hash tables: SYMTAB or DYNSYM; groups: SYMTAB)",
    ),
    (
        45,
        "SYMBOL_0_NOT_NULL",
        "the table is refused because there is no symbol 0, or a byte of it isn't 0",
    ),
    (
        46,
        "WRONG_LOCAL_COUNT",
        "the table is refused because `sh_info`, the index of the first symbol that \
         is not local, is 0 or above the number of symbols",
    ),
    (
        47,
        "MISPLACED_BINDING",
        "the table is refused because a symbol below that index is not local, or one \
         from it on is",
    ),
    (
        48,
        "SYMBOL_NAME_PAST_END",
        "the table is refused because `st_name` isn't 0 and not below the size of the \
         string table",
    ),
    (
        49,
        "SECOND_INDEX_TABLE",
        "the table is refused because a section of type SYMTAB_SHNDX links to the \
         symbol table, and a lower one does too",
    ),
    (
        50,
        "WRONG_INDEX_TABLE_SIZE",
        "the table is refused because the index table has not one word of four bytes \
         for each symbol, or its `sh_entsize` isn't 4",
    ),
    (
        51,
        "WRONG_SYMBOL_SECTION",
        "the table is refused because `st_shndx` is 0xffff and there is no index \
         table, or it is below 0xff00 and no section's index",
    ),
    (
        52,
        "WRONG_INDEX_WORD",
        "the table is refused because a word of the index table isn't 0 though the \
         symbol's `st_shndx` isn't 0xffff, or it is, and the word is below 0xff00 or \
         no section's index",
    ),
    (
        53,
        "WRONG_TARGET",
        "the table is refused because `sh_info` of a relocation section is no \
         section's index",
    ),
    (
        54,
        "WRONG_RELOCATION_SYMBOL",
        "the table is refused because a relocation's symbol is not below the number \
         of symbols",
    ),
    (
        55,
        "EMPTY_GROUP",
        "the table is refused because `sh_size` of a section group is 0",
    ),
    (
        56,
        "WRONG_GROUP_FLAGS",
        "the table is refused because a group's flags are neither 0 nor 1",
    ),
    (
        57,
        "WRONG_SIGNATURE",
        "the table is refused because `sh_info` of a group is 0 or not below the \
         number of symbols",
    ),
    (
        58,
        "WRONG_MEMBER",
        "the table is refused because a member of a group is not above i, no \
         section's index, named before in the group, or a section without the flag \
         GROUP",
    ),
    (
        59,
        "PARTIAL_NOTE",
        "the table is refused because fewer than 12 bytes are left where a note \
         begins",
    ),
    (
        60,
        "NOTE_NAME_PAST_END",
        "the table is refused because the padded name of a note passes the end",
    ),
    (
        61,
        "NOTE_DESC_PAST_END",
        "the table is refused because the padded descriptor of a note passes the end",
    ),
    (
        62,
        "UNCLOSED_NOTE_NAME",
        "the table is refused because a note's `namesz` isn't 0, and the name's last \
         byte isn't 0",
    ),
    (
        63,
        "NO_NULL_ENTRY",
        "the table is refused because no entry of a dynamic section has the tag NULL",
    ),
    (
        64,
        "DYNAMIC_STRING_PAST_END",
        "the table is refused because the value of an entry NEEDED, SONAME, RPATH or \
         RUNPATH before that one is not below the size of the string table",
    ),
    (
        65,
        "WRONG_HASH_SIZE",
        "the table is refused because `sh_size` of a hash table is below 8, or not \
         that of two words, its buckets and its chain words",
    ),
    (
        66,
        "WRONG_HASH_COUNT",
        "the table is refused because there is no bucket; or there is not one chain \
         word for each symbol",
    ),
    (
        67,
        "HASH_WORD_PAST_END",
        "the table is refused because the word of a bucket, or a chain word, is not \
         below the number of chain words",
    ),
    (
        68,
        "ENDLESS_CHAIN",
        "the table is refused because the chain of a bucket comes back to one of its \
         symbols",
    ),
    (
        69,
        "SYMBOL_OFF_CHAIN",
        "the table is refused because a symbol from 1 on is not on the chain of its \
         name's bucket",
    ),
    (
        70,
        "NOT_RELOCATABLE",
        "the file is refused because `e_type` isn't REL",
    ),
    (
        71,
        "LOADABLE",
        "the file is refused because `e_entry` isn't 0; or `e_phnum` isn't",
    ),
    (
        72,
        "FOREIGN_SECTION",
        "the file is refused because a section is of type HASH, DYNAMIC, SHLIB or \
         DYNSYM",
    ),
    (
        73,
        "SECOND_SYMBOL_TABLE",
        "the file is refused because a section is of type SYMTAB, and a lower one is \
         too",
    ),
    (
        74,
        "STRAY_INDEX_TABLE",
        "the file is refused because a section of type SYMTAB_SHNDX isn't linked to \
         the symbol table",
    ),
    (
        75,
        "SYMBOL_OUTSIDE",
        "the file is refused because a symbol is defined in a section that is left \
         out, or at a reserved index but the absolute and the common one",
    ),
    (
        76,
        "WRONG_RELOCATION_TARGET",
        "the file is refused because `sh_info` of a relocation section is that of one \
         that is left out, or has no bits (NOBITS, relocations, groups)",
    ),
    (
        77,
        "WRONG_GROUP_MEMBER",
        "the file is refused because a member of a group is left out, or a group \
         itself, or a member of a group of a lower index",
    ),
    (
        78,
        "WRONG_KEPT_LINK",
        "the file is refused because `sh_link` of a plain section isn't 0, and that \
         section is left out or isn't there",
    ),
    (
        79,
        "WRONG_KEPT_INFO",
        "the file is refused because a plain section has the flag INFO_LINK, and the \
         section of `sh_info` is left out or isn't there",
    ),
];

#[rustfmt::skip]
pub(crate) const LINK_TABLE: [(u16, &str, &str); 16] = [
    (
        1,
        "BAD_OPTIONS",
        "the link is refused because the page is no power of two, or the base no \
         multiple of it",
    ),
    (
        2,
        "MISMATCH",
        "the link is refused because a file's byte order, machine or flags are not \
         those of file 0",
    ),
    (
        3,
        "TLS",
        "the link is refused because a live section has the flag TLS",
    ),
    (
        4,
        "LINK_ORDER",
        "the link is refused because a live section has the flag LINK_ORDER",
    ),
    (
        5,
        "EMPTY_SIGNATURE",
        "the link is refused because the signature symbol of a COMDAT group has no \
         name",
    ),
    (
        6,
        "BAD_SYMBOL",
        "the link is refused because a symbol's binding is above WEAK, its type is \
         TLS, or it is not local and has no name",
    ),
    (
        7,
        "BAD_COMMON",
        "the link is refused because a common is not GLOBAL, or its value, the \
         alignment, is no power of two",
    ),
    (
        8,
        "TWO_DEFINITIONS",
        "the link is refused because a GLOBAL definition comes after another one of \
         its name",
    ),
    (
        9,
        "UNDEFINED_NAME",
        "the link is refused because a GLOBAL entry is undefined, or in a discarded \
         section, and its name has no definition and no common",
    ),
    (
        10,
        "NO_ENTRY",
        "the link is refused because the name of the entry point is bound to nothing, \
         to zero, or to a definition in a section that is not live, or its value is \
         2^64 or more",
    ),
    (
        11,
        "ADDRESS_OVERFLOW",
        "the link is refused because the address after the last byte of a section or \
         common is 2^64 or more, so that the last address is never used",
    ),
    (
        12,
        "NO_RULE",
        "the link is refused because an applied entry is of a kind that the list has \
         no rule for",
    ),
    (
        13,
        "UNPLACED",
        "the link is refused because the symbol of a field has no value: it is local, \
         and undefined or in a section that is not live; or it is not local, and the \
         definition that its name is bound to is in such a section",
    ),
    (
        14,
        "FIELD_OUT_OF_RANGE",
        "the link is refused because a field passes the end of its target",
    ),
    (
        15,
        "FIELDS_OVERLAP",
        "the link is refused because a field shares a byte with that of an entry \
         before it, by file, section and entry",
    ),
    (
        16,
        "VALUE_OUT_OF_RANGE",
        "the link is refused because the range of the rule does not admit the number: \
         in a field of n bits, `signed` admits -2^(n-1) to 2^(n-1) - 1, `unsigned` 0 \
         to 2^n - 1, `wrap` every number",
    ),
];
