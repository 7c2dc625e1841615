"""The rules by their numbers. Made by `tools/release tables` from docs/RULES.md."""

# The name, the sentence and the advice of each rule of files.
RULES = {1: ('TOO_LONG',
     'the file is refused because it is longer than 2^30 bytes',
     'elfmap serves files of up to 1 GiB; split it'),
 2: ('TOO_SHORT',
     'the file is refused because it is shorter than an ELF header, 64 bytes',
     'it is no ELF-64 file, or was cut short'),
 3: ('WRONG_MAGIC',
     'the file is refused because a byte of the magic number (7f 45 4c 46) is wrong',
     'it is no ELF file'),
 4: ('WRONG_CLASS',
     "the file is refused because its class isn't 2, for 64-bit objects",
     'a 32-bit file: elfmap reads class 64 alone'),
 5: ('WRONG_DATA',
     'the file is refused because its data encoding is neither 1 (little-endian) nor 2 '
     '(big-endian)',
     'the identification is damaged'),
 6: ('WRONG_IDENT_VERSION',
     "the file is refused because the version in its identification isn't 1",
     'the identification is damaged'),
 7: ('WRONG_VERSION',
     "the file is refused because `e_version` isn't 1",
     'the header is damaged, or of the other byte order'),
 8: ('WRONG_HEADER_SIZE',
     "the file is refused because `e_ehsize` isn't 64",
     "the writer of the file has to give the header's size"),
 9: ('COUNT_WITHOUT_SECTION_TABLE',
     "the file is refused because `e_shoff` is 0, and `e_shnum` or `e_shstrndx` isn't",
     'a file without sections has 0 in all three'),
 10: ('WRONG_SECTION_HEADER_SIZE',
      'the file is refused because there is a section header table, and `e_shentsize` '
      "isn't 64",
      "entries of another size aren't section headers of class 64"),
 11: ('RESERVED_SECTION_COUNT',
      'the file is refused because `e_shnum` is 0xff00 or more',
      'so many sections are counted in section header 0'),
 12: ('FIRST_SECTION_HEADER_PAST_END',
      'the file is refused because there is a section header table, and section header '
      '0 passes the end of the file',
      'the file was cut short, or `e_shoff` is wrong'),
 13: ('FIRST_SECTION_HEADER_NOT_NULL',
      'the file is refused because a field of section header 0 other than `sh_size`, '
      "`sh_link` and `sh_info` isn't 0",
      'section header 0 is of no section'),
 14: ('WRONG_EXTENDED_SECTION_COUNT',
      "the file is refused because `e_shnum` isn't 0 and section header 0 has a count "
      'too, or `e_shnum` is 0 and that count is below 0xff00',
      'a count below 0xff00 is in `e_shnum`, any other in section header 0'),
 15: ('SECTION_TABLE_PAST_END',
      'the file is refused because the section header table passes the end of the file',
      'the file was cut short, or the count is wrong'),
 16: ('WRONG_NAME_TABLE_INDEX',
      'the file is refused because `e_shstrndx` is neither 0xffff nor below both '
      '0xff00 and n',
      'there is no such section'),
 17: ('WRONG_EXTENDED_NAME_TABLE_INDEX',
      'the file is refused because `e_shstrndx` is 0xffff and the index in section '
      "header 0 is below 0xff00 or not below n, or it isn't and that index isn't 0",
      'an index below 0xff00 is in `e_shstrndx`, any other in section header 0'),
 18: ('WRONG_SEGMENT_COUNT',
      'the file is refused because just one of `e_phoff` and `e_phnum` is 0, or '
      '`e_phnum` is 0xffff and there is no section header 0',
      'a program header table has an offset and a count'),
 19: ('WRONG_PROGRAM_HEADER_SIZE',
      "the file is refused because `e_phnum` isn't 0, and `e_phentsize` isn't 56",
      "entries of another size aren't program headers of class 64"),
 20: ('WRONG_EXTENDED_SEGMENT_COUNT',
      'the file is refused because `e_phnum` is 0xffff and the count in section header '
      "0 is below 0xffff, or it isn't and that count isn't 0",
      'a count below 0xffff is in `e_phnum`, any other in section header 0'),
 21: ('PROGRAM_TABLE_PAST_END',
      'the file is refused because the program header table passes the end of the file',
      'the file was cut short, or the count is wrong'),
 22: ('WRONG_SECTION_ALIGNMENT',
      'the file is refused because `sh_addralign` is neither 0 nor a power of two',
      'give an alignment that is one'),
 23: ('MISALIGNED_SECTION',
      'the file is refused because `sh_addralign` is above 1 and `sh_addr` is no '
      'multiple of it',
      'move the section, or lower its alignment'),
 24: ('CONTENT_PAST_END',
      "the file is refused because a section that isn't NOBITS has bytes, and its last "
      'one lies past the end of the file',
      'the file was cut short, or offset and size are wrong'),
 25: ('SEGMENT_PAST_END',
      'the file is refused because a segment has bytes in the file, and its last one '
      'lies past the end of the file',
      'the file was cut short, or offset and size are wrong'),
 26: ('FILE_SIZE_ABOVE_MEMORY_SIZE',
      'the file is refused because `p_filesz` is above `p_memsz`',
      'a segment in memory holds all its bytes of the file'),
 27: ('WRONG_SEGMENT_ALIGNMENT',
      'the file is refused because `p_align` is neither 0 nor a power of two',
      'give an alignment that is one'),
 28: ('INCONGRUENT_SEGMENT',
      'the file is refused because `p_align` is above 1, and `p_vaddr` and `p_offset` '
      'differ modulo it',
      "the segment can't be mapped at its address"),
 29: ('LOAD_OUT_OF_ORDER',
      'the file is refused because `p_vaddr` is below that of the loadable segment '
      'before it',
      'loadable segments are in ascending order'),
 30: ('WRONG_NAME_TABLE_TYPE',
      "the file is refused because the name table's type isn't STRTAB",
      'the index of the name table is wrong'),
 31: ('UNCLOSED_NAME_TABLE',
      'the file is refused because the name table has bytes, and the first or the last '
      "one isn't 0",
      'a string table begins and ends with a zero'),
 32: ('NAME_PAST_END',
      'the file is refused because `sh_name` is not below the size of the name table '
      '(0 is allowed where there is no name table, or an empty one)',
      'the name lies outside the table'),
 33: ('SHARED_BYTE',
      'the file is refused because a byte lies in two of these: the ELF header, the '
      'two tables, and the contents of sections (neither NULL nor NOBITS)',
      'every byte of a file belongs to one of its parts'),
 40: ('WRONG_TABLE_TYPE',
      'the table is refused because the section is not of a type that holds such a '
      'table (symbols: SYMTAB or DYNSYM; strings: STRTAB; relocations: REL or RELA; '
      'groups: GROUP; notes: NOTE; dynamic arrays: DYNAMIC; hash tables: HASH)',
      'another section was meant: `show` never answers this one'),
 41: ('UNCLOSED_STRING_TABLE',
      'the table is refused because the string table has bytes, and the first or the '
      "last one isn't 0",
      'a string table begins and ends with a zero'),
 42: ('WRONG_ENTRY_SIZE',
      "the table is refused because `sh_entsize` isn't the size of an entry (symbols "
      'and RELA: 24; REL and dynamic arrays: 16; groups and hash tables: 4)',
      "the writer of the file has to give the entry's size"),
 43: ('PARTIAL_ENTRY',
      "the table is refused because `sh_size` is no multiple of the entry's size",
      'the table was cut short, or the size is wrong'),
 44: ('WRONG_LINK',
      "the table is refused because `sh_link` is no section's index, or that of a "
      'section of another type than the table links to (symbols and dynamic arrays: '
      'STRTAB; relocations and hash tables: SYMTAB or DYNSYM; groups: SYMTAB)',
      'the link is wrong; a static executable has relocations without a symbol table '
      '(`.rela.plt` with `sh_link` 0): such a section is refused by this rule in '
      '`show`, and the rest of the file is shown'),
 45: ('SYMBOL_0_NOT_NULL',
      "the table is refused because there is no symbol 0, or a byte of it isn't 0",
      'symbol 0 is all zeros'),
 46: ('WRONG_LOCAL_COUNT',
      'the table is refused because `sh_info`, the index of the first symbol that is '
      'not local, is 0 or above the number of symbols',
      'count the local symbols, symbol 0 among them'),
 47: ('MISPLACED_BINDING',
      'the table is refused because a symbol below that index is not local, or one '
      'from it on is',
      'local symbols come first'),
 48: ('SYMBOL_NAME_PAST_END',
      "the table is refused because `st_name` isn't 0 and not below the size of the "
      'string table',
      'the name lies outside the table'),
 49: ('SECOND_INDEX_TABLE',
      'the table is refused because a section of type SYMTAB_SHNDX links to the symbol '
      'table, and a lower one does too',
      'a symbol table has one index table'),
 50: ('WRONG_INDEX_TABLE_SIZE',
      'the table is refused because the index table has not one word of four bytes for '
      "each symbol, or its `sh_entsize` isn't 4",
      'index table and symbol table go together'),
 51: ('WRONG_SYMBOL_SECTION',
      'the table is refused because `st_shndx` is 0xffff and there is no index table, '
      "or it is below 0xff00 and no section's index",
      "the symbol's section isn't there"),
 52: ('WRONG_INDEX_WORD',
      "the table is refused because a word of the index table isn't 0 though the "
      "symbol's `st_shndx` isn't 0xffff, or it is, and the word is below 0xff00 or no "
      "section's index",
      'an index below 0xff00 is in `st_shndx`, any other in the index table'),
 53: ('WRONG_TARGET',
      "the table is refused because `sh_info` of a relocation section is no section's "
      'index',
      "the section that the relocations apply to isn't there"),
 54: ('WRONG_RELOCATION_SYMBOL',
      "the table is refused because a relocation's symbol is not below the number of "
      'symbols',
      "the symbol isn't there"),
 55: ('EMPTY_GROUP',
      'the table is refused because `sh_size` of a section group is 0',
      'a group begins with a word of flags'),
 56: ('WRONG_GROUP_FLAGS',
      "the table is refused because a group's flags are neither 0 nor 1",
      'COMDAT is the only flag'),
 57: ('WRONG_SIGNATURE',
      'the table is refused because `sh_info` of a group is 0 or not below the number '
      'of symbols',
      'a group is named by a symbol of the table that it links to'),
 58: ('WRONG_MEMBER',
      "the table is refused because a member of a group is not above i, no section's "
      'index, named before in the group, or a section without the flag GROUP',
      'a group comes before its members, names each once, and each says that it is '
      'one'),
 59: ('PARTIAL_NOTE',
      'the table is refused because fewer than 12 bytes are left where a note begins',
      'the notes were cut short, or padded wrongly'),
 60: ('NOTE_NAME_PAST_END',
      'the table is refused because the padded name of a note passes the end',
      'the size of the name is wrong'),
 61: ('NOTE_DESC_PAST_END',
      'the table is refused because the padded descriptor of a note passes the end',
      'the size of the descriptor is wrong, or its padding is missing'),
 62: ('UNCLOSED_NOTE_NAME',
      "the table is refused because a note's `namesz` isn't 0, and the name's last "
      "byte isn't 0",
      'a name ends with a zero, which `namesz` counts'),
 63: ('NO_NULL_ENTRY',
      'the table is refused because no entry of a dynamic section has the tag NULL',
      'a dynamic array ends with such an entry'),
 64: ('DYNAMIC_STRING_PAST_END',
      'the table is refused because the value of an entry NEEDED, SONAME, RPATH or '
      'RUNPATH before that one is not below the size of the string table',
      'the name lies outside the table'),
 65: ('WRONG_HASH_SIZE',
      'the table is refused because `sh_size` of a hash table is below 8, or not that '
      'of two words, its buckets and its chain words',
      'the table was cut short, or a count is wrong'),
 66: ('WRONG_HASH_COUNT',
      'the table is refused because there is no bucket; or there is not one chain word '
      'for each symbol',
      'count buckets and symbols'),
 67: ('HASH_WORD_PAST_END',
      'the table is refused because the word of a bucket, or a chain word, is not '
      'below the number of chain words',
      "the symbol isn't there"),
 68: ('ENDLESS_CHAIN',
      'the table is refused because the chain of a bucket comes back to one of its '
      'symbols',
      'a chain ends with symbol 0'),
 69: ('SYMBOL_OFF_CHAIN',
      'the table is refused because a symbol from 1 on is not on the chain of its '
      "name's bucket",
      'build the table again; a table that leaves out LOCAL symbols is refused too: '
      'each symbol from 1 on is on a chain'),
 70: ('NOT_RELOCATABLE',
      "the file is refused because `e_type` isn't REL",
      'an executable or a library is no object'),
 71: ('LOADABLE',
      "the file is refused because `e_entry` isn't 0; or `e_phnum` isn't",
      'an object has no entry point and no segments'),
 72: ('FOREIGN_SECTION',
      'the file is refused because a section is of type HASH, DYNAMIC, SHLIB or DYNSYM',
      'such sections belong to what is loaded'),
 73: ('SECOND_SYMBOL_TABLE',
      'the file is refused because a section is of type SYMTAB, and a lower one is too',
      'an object has one symbol table'),
 74: ('STRAY_INDEX_TABLE',
      "the file is refused because a section of type SYMTAB_SHNDX isn't linked to the "
      'symbol table',
      'an index table goes with the symbol table'),
 75: ('SYMBOL_OUTSIDE',
      'the file is refused because a symbol is defined in a section that is left out, '
      'or at a reserved index but the absolute and the common one',
      "the symbol's section has to be one of the object"),
 76: ('WRONG_RELOCATION_TARGET',
      'the file is refused because `sh_info` of a relocation section is that of one '
      'that is left out, or has no bits (NOBITS, relocations, groups)',
      'relocations apply to bytes'),
 77: ('WRONG_GROUP_MEMBER',
      'the file is refused because a member of a group is left out, or a group itself, '
      'or a member of a group of a lower index',
      'a section is in one group'),
 78: ('WRONG_KEPT_LINK',
      "the file is refused because `sh_link` of a plain section isn't 0, and that "
      "section is left out or isn't there",
      'what an object links to has to be in it; the section `.llvm_addrsig`, which '
      'clang writes by default, links to the symbol table, and is left out by '
      '`-fno-addrsig` (or `objcopy --remove-section=.llvm_addrsig`)'),
 79: ('WRONG_KEPT_INFO',
      'the file is refused because a plain section has the flag INFO_LINK, and the '
      "section of `sh_info` is left out or isn't there",
      'what an object links to has to be in it; the section `.llvm_addrsig`, which '
      'clang writes by default, links to the symbol table, and is left out by '
      '`-fno-addrsig` (or `objcopy --remove-section=.llvm_addrsig`)')}

# Those of each rule of links.
LINK_RULES = {1: ('BAD_OPTIONS',
     'the link is refused because the page is no power of two, or the base no multiple '
     'of it',
     'choose another page or base'),
 2: ('MISMATCH',
     "the link is refused because a file's byte order, machine or flags are not those "
     'of file 0',
     'link files for one machine'),
 3: ('TLS',
     'the link is refused because a live section has the flag TLS',
     'thread-local storage is not linked'),
 4: ('LINK_ORDER',
     'the link is refused because a live section has the flag LINK_ORDER',
     'placement by another section is not linked'),
 5: ('EMPTY_SIGNATURE',
     'the link is refused because the signature symbol of a COMDAT group has no name',
     'a group is identified by its signature'),
 6: ('BAD_SYMBOL',
     "the link is refused because a symbol's binding is above WEAK, its type is TLS, "
     'or it is not local and has no name',
     "the symbol can't be bound"),
 7: ('BAD_COMMON',
     'the link is refused because a common is not GLOBAL, or its value, the alignment, '
     'is no power of two',
     'give an alignment that is one'),
 8: ('TWO_DEFINITIONS',
     'the link is refused because a GLOBAL definition comes after another one of its '
     'name',
     'define a name once, or make it weak'),
 9: ('UNDEFINED_NAME',
     'the link is refused because a GLOBAL entry is undefined, or in a discarded '
     'section, and its name has no definition and no common',
     'a file that defines the name is missing'),
 10: ('NO_ENTRY',
      'the link is refused because the name of the entry point is bound to nothing, to '
      'zero, or to a definition in a section that is not live, or its value is 2^64 or '
      'more',
      'name a symbol that is defined in the program'),
 11: ('ADDRESS_OVERFLOW',
      'the link is refused because the address after the last byte of a section or '
      'common is 2^64 or more, so that the last address is never used',
      'choose a lower base'),
 12: ('NO_RULE',
      'the link is refused because an applied entry is of a kind that the list has no '
      'rule for',
      'take the file of `rules/` for the machine, or add a line by what its psABI '
      'defines for the kind; `none` is for kinds alone that the psABI defines to '
      'change nothing'),
 13: ('UNPLACED',
      'the link is refused because the symbol of a field has no value: it is local, '
      'and undefined or in a section that is not live; or it is not local, and the '
      'definition that its name is bound to is in such a section',
      'what the program refers to has to be in a section with the flag ALLOC that is '
      'not discarded; a reference to a member of a group has to go by a name that is '
      'not local'),
 14: ('FIELD_OUT_OF_RANGE',
      'the link is refused because a field passes the end of its target',
      "the offset is wrong, or the rule's width"),
 15: ('FIELDS_OVERLAP',
      'the link is refused because a field shares a byte with that of an entry before '
      'it, by file, section and entry',
      'a byte belongs to one field; the form `none` is for kinds alone that the psABI '
      'defines to change nothing'),
 16: ('VALUE_OUT_OF_RANGE',
      'the link is refused because the range of the rule does not admit the number: in '
      'a field of n bits, `signed` admits -2^(n-1) to 2^(n-1) - 1, `unsigned` 0 to 2^n '
      '- 1, `wrap` every number',
      'place the program where its addresses fit, most often lower, or compile it for '
      'larger addresses')}

# Those of each warning before a link.
WARNINGS = {1: ('INDIRECT_FUNCTION',
     'the program may not be that of `ld` because a field or the entry point refers to '
     'a symbol of type GNU_IFUNC, whose value is the address of its resolver, and not '
     'of the function that this returns',
     'call the function itself, or call the resolver and then what it returns; compile '
     'without `ifunc` and `target_clones`'),
 2: ('NAME_OF_LINKER',
     'the program may not be that of `ld` because a field refers to a WEAK name that '
     'no file defines, and that `ld` defines: its value is 0',
     'define the name in an object'),
 3: ('FIELD_UNCHANGED',
     'the program may not be that of `ld` because the list has a rule of the form '
     '`none` for the kind of an applied entry, the kind is not 0, and no file of '
     '`rules/` for the machine says that the kind changes nothing',
     'take the line of the file of `rules/` for the machine; a kind that has none '
     "there can't be linked"),
 4: ('FIELD_CHANGED_OTHERWISE',
     'the program may not be that of `ld` because the rule for the kind of an applied '
     'entry has another form or width than in the file of `rules/` for the machine, or '
     'the kind is 0 and the rule changes bytes',
     'take the line of that file'),
 5: ('CODE_FOR_LTO',
     'the program may not be that of `ld` because an object has its code only in '
     'sections for link-time optimization, which `ld` passes to the compiler',
     'compile it without `-flto`, or with `-ffat-lto-objects`'),
 6: ('ARRAY_NOT_SORTED',
     'the program may not be that of `ld` because a live section is named '
     '`.init_array.N`, `.ctors` or `.ctors.N`, or `.fini_array.N`, `.dtors` or '
     '`.dtors.N`; `ld` sorts it into `.init_array` or `.fini_array`, and a field '
     'refers to that array',
     'call the functions yourself; or let the compiler put them into `.init_array` and '
     '`.fini_array`: give no constructor and no destructor a priority, and compile '
     'without `-fno-use-init-array`'),
 7: ('EXECUTABLE_STACK',
     'the program may not be that of `ld` because an object asks for an executable '
     'stack, by the flag EXECINSTR of its section `.note.GNU-stack`: `ld` gives the '
     'program one',
     'take the address of no nested function that uses variables of the function '
     'around it; assemble with `--noexecstack` what runs no code on the stack'),
 8: ('DIVIDED_SECTION',
     'the program may not be that of `ld` because a field refers to a name at the '
     'beginning or the end of a section, such as `__start_x` or `__init_array_end`, '
     'and sections of that name have different flags: `ld` makes one section of them, '
     'and `link` one for each set of flags',
     'give all sections of the name the same flags: in C, make all variables there '
     '`const`, or none'),
 9: ('GAP_IN_CODE',
     'the program may not be that of `ld` because the part of a file of the function '
     '`.init` or `.fini` begins after a gap, into which the part before it runs: `ld` '
     'fills the gap with instructions that do nothing, and `link` with zeros',
     'align no part of `.init` and `.fini`, or fill up the part before it'),
 10: ('VERSIONED_NAME',
      'the program may not be that of `ld` because a field refers to a WEAK name that '
      'no file defines, and a file defines a default version of it, as `foo@@V1` of '
      '`foo` and of `foo@V1`, which `ld` takes for it: its value is 0',
      'compile that file without `.symver`, or define the name itself')}
