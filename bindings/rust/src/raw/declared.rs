//! What include/elfmap.h declares. Made by `tools/release tables` from it, not edited by hand.

// The crate does not need all of it.
#![allow(dead_code)]

/// The version of this header, a `uint64_t`: 1,000,000 MAJOR + 1,000 MINOR + PATCH, so 1000 is
/// 0.1.0. Of versions with the same MAJOR the later one has all calls of the earlier one.
pub const VERSION: u64 = 1000;

/// In place of a rule's number, in a `uint16_t`: the buffer has too few items. No rule has this
/// number.
pub const SHORT_ROOM: u16 = 0;

/// The ELF header.
pub const HEADER: u64 = 0;

/// The section header table.
pub const SECTION_HEADERS: u64 = 1;

/// The program header table.
pub const PROGRAM_HEADERS: u64 = 2;

/// The content of section 0; that of section i is ELFMAP_CONTENTS + i.
pub const CONTENTS: u64 = 3;

/// In place of an owner, in a `uint64_t`: the part is a gap, which belongs to nothing.
pub const GAP: u64 = u64::MAX;

/// Nothing is refused.
pub const DONE: u32 = 0;

/// File `file` breaks rule `rule`, lowest at the offset `at`, and no file before it breaks any.
pub const REFUSED: u32 = 1;

/// The files do not link: rule `rule` of the link is broken, first at entry `at` of `index` of file
/// `file`.
pub const NOT_LINKED: u32 = 2;

/// The output would be longer than 2^30 bytes, or have 0xffff segments or more.
pub const TOO_LONG: u32 = 3;

/// The buffer is too small: it has to be `length` bytes long.
pub const SMALL_ROOM: u32 = 4;

/// Out of memory.
pub const NO_MEMORY: u32 = 5;

/// Line `at` of the relocation rules is bad, and none before it; lines count from 1.
pub const BAD_RULES: u32 = 6;

/// The first of the rules 1 to 33 that a file breaks.
#[derive(Clone, Copy, Debug, Default, PartialEq, Eq, Hash)]
#[repr(C)]
pub struct Fault {
    /// The lowest offset at which it is broken.
    pub at: u64,
    /// Its number.
    pub rule: u16,
}

/// The bytes at the offsets from `start` to below `start + len`; none if `len` is 0.
#[derive(Clone, Copy, Debug, Default, PartialEq, Eq, Hash)]
#[repr(C)]
pub struct Extent {
    pub start: u64,
    pub len: u64,
}

/// The bytes at the offsets from `start` to below `start + len`, and what they belong to.
#[derive(Clone, Copy, Debug, Default, PartialEq, Eq, Hash)]
#[repr(C)]
pub struct Part {
    pub start: u64,
    pub len: u64,
    pub owner: u64,
}

/// What the accessors need of a file.
#[derive(Clone, Copy, Debug, Default, PartialEq, Eq, Hash)]
#[repr(C)]
pub struct File {
    /// The offset of the program header table, 0 for none.
    pub e_phoff: u64,
    /// The offset of the section header table, 0 for none.
    pub e_shoff: u64,
    /// How many section headers there are, also if e_shnum cannot hold it.
    pub sections: u64,
    /// How many program headers there are, also if e_phnum cannot hold it.
    pub segments: u64,
    /// The index of the section name string table, 0 for none, also if e_shstrndx cannot hold it.
    pub name_table: u64,
    /// The data encoding: 1 is ELFDATA2LSB, 2 is ELFDATA2MSB.
    pub ei_data: u8,
}

/// In which record of an owner a byte is, and in which field of it.
#[derive(Clone, Copy, Debug, Default, PartialEq, Eq, Hash)]
#[repr(C)]
pub struct Place {
    /// The index of the record among those of the owner.
    pub entry: u64,
    /// Where the record is in the file.
    pub record: Extent,
    /// Where the field is in the record.
    pub field: Extent,
}

/// The ELF header, with its fields as the file has them.
#[derive(Clone, Copy, Debug, Default, PartialEq, Eq, Hash)]
#[repr(C)]
pub struct Header {
    /// The identification: magic number, class, data encoding, versions, and the ABI.
    pub e_ident: [u8; 16],
    /// The kind of file: 1 is relocatable, 2 executable, 3 shared, 4 a core.
    pub e_type: u16,
    /// The machine, as 62 for x86-64.
    pub e_machine: u16,
    /// The version of the format, 1.
    pub e_version: u32,
    /// The address at which the program begins, 0 for none.
    pub e_entry: u64,
    /// The offset of the program header table, 0 for none.
    pub e_phoff: u64,
    /// The offset of the section header table, 0 for none.
    pub e_shoff: u64,
    /// Flags of the machine.
    pub e_flags: u32,
    /// The size of this header, 64.
    pub e_ehsize: u16,
    /// The size of a program header.
    pub e_phentsize: u16,
    /// How many program headers there are; `0xffff` where section header 0 says it.
    pub e_phnum: u16,
    /// The size of a section header.
    pub e_shentsize: u16,
    /// How many section headers there are; 0 also where section header 0 says it.
    pub e_shnum: u16,
    /// The section that has the names; `0xffff` where section header 0 says it.
    pub e_shstrndx: u16,
}

/// A section header, with its fields as the file has them.
#[derive(Clone, Copy, Debug, Default, PartialEq, Eq, Hash)]
#[repr(C)]
pub struct SectionHeader {
    /// Where the name begins in the section name string table.
    pub sh_name: u32,
    /// The kind of section.
    pub sh_type: u32,
    /// Its flags: 1 is writable, 2 takes memory, 4 is executable.
    pub sh_flags: u64,
    /// Its address in memory, 0 for none.
    pub sh_addr: u64,
    /// The offset of its content.
    pub sh_offset: u64,
    /// The size of its content; of a section without bytes in the file, that in memory.
    pub sh_size: u64,
    /// The index of another section, which the type says.
    pub sh_link: u32,
    /// A number that the type says.
    pub sh_info: u32,
    /// What its address is a multiple of; 0 and 1 say nothing.
    pub sh_addralign: u64,
    /// The size of an entry, where the content is a table.
    pub sh_entsize: u64,
}

/// A program header, with its fields as the file has them.
#[derive(Clone, Copy, Debug, Default, PartialEq, Eq, Hash)]
#[repr(C)]
pub struct ProgramHeader {
    /// The kind of segment; 1 is loaded.
    pub p_type: u32,
    /// Its permissions: 1 is executable, 2 writable, 4 readable.
    pub p_flags: u32,
    /// The offset of its bytes in the file.
    pub p_offset: u64,
    /// Its address in memory.
    pub p_vaddr: u64,
    /// Its physical address, where that counts.
    pub p_paddr: u64,
    /// How many bytes it has in the file.
    pub p_filesz: u64,
    /// How many bytes it has in memory.
    pub p_memsz: u64,
    /// Modulo which its address and its offset agree; 0 and 1 say nothing.
    pub p_align: u64,
}

/// What the accessors of a table's entries need. If a part has no bytes, its `len` is 0.
#[derive(Clone, Copy, Debug, Default, PartialEq, Eq, Hash)]
#[repr(C)]
pub struct Table {
    /// The content of the section.
    pub content: Extent,
    /// Of a symbol table its index table (SHT_SYMTAB_SHNDX), of a hash table its symbol table.
    pub linked: Extent,
    /// Of a symbol table and a hash table the symbols' names, of a dynamic array the strings of its
    /// entries.
    pub strings: Extent,
    /// How many there are; in a dynamic array those before the first one with tag DT_NULL (0), in a
    /// note section those before the first one that is cut, in a group, an index table and a hash
    /// table words.
    pub entries: u64,
    /// The type of the section.
    pub sh_type: u32,
    /// The data encoding: 1 is ELFDATA2LSB, 2 is ELFDATA2MSB.
    pub ei_data: u8,
}

/// An entry of a symbol table, with its name and its section.
#[derive(Clone, Copy, Debug, Default, PartialEq, Eq, Hash)]
#[repr(C)]
pub struct Symbol {
    /// Where its name is in the file, without its closing zero.
    pub name: Extent,
    pub st_value: u64,
    pub st_size: u64,
    pub st_name: u32,
    /// `st_shndx`, or the word of the index table if that is SHN_XINDEX (0xffff): the index of its
    /// section, unless `st_shndx` is 0 or from 0xff00 to 0xfffe.
    pub section: u32,
    pub st_shndx: u16,
    pub st_info: u8,
    pub st_other: u8,
}

/// An entry of a relocation section.
#[derive(Clone, Copy, Debug, Default, PartialEq, Eq, Hash)]
#[repr(C)]
pub struct Relocation {
    /// Where it applies: in a relocatable file the offset in the section that `sh_info` names.
    pub r_offset: u64,
    /// The constant that is added; 0 in a section of type `SHT_REL` (9), where the relocated bytes
    /// have it.
    pub r_addend: i64,
    /// The index of the symbol in the symbol table that `sh_link` names, the upper half of
    /// `r_info`.
    pub symbol: u32,
    /// The type, which is the machine's, the lower half of `r_info`.
    pub relocation_type: u32,
}

/// An entry of a dynamic array.
#[derive(Clone, Copy, Debug, Default, PartialEq, Eq, Hash)]
#[repr(C)]
pub struct Dynamic {
    /// What the entry is: 1 names a library that is needed.
    pub d_tag: i64,
    /// Its number or its address (`d_val` or `d_ptr`), as the tag says.
    pub d_un: u64,
}

/// A note of a note section.
#[derive(Clone, Copy, Debug, Default, PartialEq, Eq, Hash)]
#[repr(C)]
pub struct Note {
    /// Where its name is in the file, without its closing zero and its padding.
    pub name: Extent,
    /// Where its descriptor is in the file, without its padding.
    pub desc: Extent,
    /// Where the next note begins, in bytes from the beginning of the section.
    pub next: u64,
    pub n_type: u32,
}

/// A file of a link: its bytes in memory.
#[derive(Clone, Copy, Debug, PartialEq, Eq, Hash)]
#[repr(C)]
pub struct Bytes {
    /// The first one; it may be null where there is none.
    pub bytes: *const u8,
    /// How many they are.
    pub len: usize,
}

/// What a call of an engine returns beside its status. Files, indexes and entries count from 0.
#[derive(Clone, Copy, Debug, Default, PartialEq, Eq, Hash)]
#[repr(C)]
pub struct Outcome {
    /// The length of the whole output, in bytes; of elfmap_table_verdicts, how many slots were
    /// filled.
    pub length: u64,
    /// An offset, an entry or a line.
    pub at: u64,
    /// Which file.
    pub file: u64,
    /// The position of a section or symbol in the file, as docs/RULES.md says for each rule of the
    /// link.
    pub index: u64,
    /// The number of the rule: 1 to 33 of an image, from 40 on of an object, or 1 to 16 of a link.
    pub rule: u16,
}

/// Where a link places sections.
#[derive(Clone, Copy, Debug, Default, PartialEq, Eq, Hash)]
#[repr(C)]
pub struct Options {
    /// The address at which placement begins: a multiple of `page`, or rule 1 of the link is
    /// broken.
    pub base: u64,
    /// Each output section begins at a multiple of it: a power of two, or rule 1 is broken.
    pub page: u64,
    /// For elfmap_map and elfmap_link_verdict: 0 if there are no relocation rules.
    pub uses_rules: u32,
}

/// What a broken rule of the link is about. A number that has no meaning is 0.
#[derive(Clone, Copy, Debug, Default, PartialEq, Eq, Hash)]
#[repr(C)]
pub struct LinkPlace {
    /// The index of the section that the rule is about, or of the section that holds the symbol or
    /// the relocation.
    pub section: u64,
    /// The index of the symbol or the relocation in that section; of a section 0.
    pub entry: u64,
    /// Where the section header, the symbol or the relocation is in the file; `len` is 0 if there
    /// is none.
    pub record: Extent,
    /// Where the name of the symbol is in the file, or of the symbol that the relocation refers to,
    /// without its closing zero; `len` is 0 if it has no name.
    pub name: Extent,
    /// Of rule 8 the file of the first definition of the name.
    pub first_file: u64,
    /// Its position in that file, as `index` of an outcome.
    pub first_index: u64,
}

extern "C" {
    pub fn elfmap_version() -> u64;
    pub fn elfmap_verdict(bytes: *const u8, len: usize, fault: &mut Fault) -> bool;
    pub fn elfmap_verdict_in(
        bytes: *const u8,
        len: usize,
        buffer: *mut Extent,
        count: usize,
        fault: &mut Fault,
    ) -> bool;
    pub fn elfmap_parts(
        bytes: *const u8,
        len: usize,
        buffer: *mut Part,
        count: usize,
        parts: &mut u64,
        fault: &mut Fault,
    ) -> bool;
    pub fn elfmap_file(bytes: *const u8, len: usize, file: &mut File) -> bool;
    pub fn elfmap_header(bytes: *const u8, len: usize, header: &mut Header) -> bool;
    pub fn elfmap_section(
        file: &File,
        bytes: *const u8,
        len: usize,
        index: u64,
        section: &mut SectionHeader,
    ) -> bool;
    pub fn elfmap_sections(
        file: &File,
        bytes: *const u8,
        len: usize,
        first: u64,
        buffer: *mut SectionHeader,
        count: usize,
    ) -> u64;
    pub fn elfmap_segment(
        file: &File,
        bytes: *const u8,
        len: usize,
        index: u64,
        segment: &mut ProgramHeader,
    ) -> bool;
    pub fn elfmap_load(
        file: &File,
        bytes: *const u8,
        len: usize,
        address: u64,
        byte: &mut u8,
    ) -> bool;
    pub fn elfmap_name(
        file: &File,
        bytes: *const u8,
        len: usize,
        index: u64,
        name: &mut Extent,
    ) -> bool;
    pub fn elfmap_section_named(
        file: &File,
        bytes: *const u8,
        len: usize,
        name: *const u8,
        name_len: usize,
        index: &mut u64,
    ) -> bool;
    pub fn elfmap_owner(
        file: &File,
        bytes: *const u8,
        len: usize,
        offset: u64,
        first: u64,
        owner: &mut u64,
    ) -> bool;
    pub fn elfmap_place(
        file: &File,
        bytes: *const u8,
        len: usize,
        offset: u64,
        owner: u64,
        place: &mut Place,
    ) -> bool;
    pub fn elfmap_table(
        file: &File,
        bytes: *const u8,
        len: usize,
        index: u64,
        table: &mut Table,
    ) -> bool;
    pub fn elfmap_symbol(
        table: &Table,
        bytes: *const u8,
        len: usize,
        index: u64,
        symbol: &mut Symbol,
    ) -> bool;
    pub fn elfmap_relocation(
        table: &Table,
        bytes: *const u8,
        len: usize,
        index: u64,
        relocation: &mut Relocation,
    ) -> bool;
    pub fn elfmap_dynamic(
        table: &Table,
        bytes: *const u8,
        len: usize,
        index: u64,
        entry: &mut Dynamic,
    ) -> bool;
    pub fn elfmap_word(
        table: &Table,
        bytes: *const u8,
        len: usize,
        index: u64,
        word: &mut u32,
    ) -> bool;
    pub fn elfmap_symbols(
        table: &Table,
        bytes: *const u8,
        len: usize,
        first: u64,
        buffer: *mut Symbol,
        count: usize,
    ) -> u64;
    pub fn elfmap_relocations(
        table: &Table,
        bytes: *const u8,
        len: usize,
        first: u64,
        buffer: *mut Relocation,
        count: usize,
    ) -> u64;
    pub fn elfmap_dynamics(
        table: &Table,
        bytes: *const u8,
        len: usize,
        first: u64,
        buffer: *mut Dynamic,
        count: usize,
    ) -> u64;
    pub fn elfmap_words(
        table: &Table,
        bytes: *const u8,
        len: usize,
        first: u64,
        buffer: *mut u32,
        count: usize,
    ) -> u64;
    pub fn elfmap_string(
        table: &Table,
        bytes: *const u8,
        len: usize,
        offset: u64,
        place: &mut Extent,
    ) -> bool;
    pub fn elfmap_note(
        table: &Table,
        bytes: *const u8,
        len: usize,
        index: u64,
        note: &mut Note,
    ) -> bool;
    pub fn elfmap_note_at(
        table: &Table,
        bytes: *const u8,
        len: usize,
        offset: u64,
        note: &mut Note,
    ) -> bool;
    pub fn elfmap_find(
        table: &Table,
        bytes: *const u8,
        len: usize,
        name: *const u8,
        name_len: usize,
        symbol: &mut u32,
    ) -> bool;
    pub fn elfmap_show(
        bytes: *const u8,
        len: usize,
        buffer: *mut u8,
        size: usize,
        outcome: &mut Outcome,
    ) -> u32;
    pub fn elfmap_table_verdicts(
        bytes: *const u8,
        len: usize,
        first: u64,
        buffer: *mut Fault,
        count: usize,
        outcome: &mut Outcome,
    ) -> u32;
    pub fn elfmap_rewrite(
        bytes: *const u8,
        len: usize,
        buffer: *mut u8,
        size: usize,
        outcome: &mut Outcome,
    ) -> u32;
    pub fn elfmap_object_verdict(bytes: *const u8, len: usize, outcome: &mut Outcome) -> u32;
    pub fn elfmap_map(
        files: *const Bytes,
        count: usize,
        options: &Options,
        rules: *const u8,
        rules_len: usize,
        buffer: *mut u8,
        size: usize,
        outcome: &mut Outcome,
    ) -> u32;
    pub fn elfmap_link(
        files: *const Bytes,
        count: usize,
        options: &Options,
        entry: *const u8,
        entry_len: usize,
        rules: *const u8,
        rules_len: usize,
        buffer: *mut u8,
        size: usize,
        outcome: &mut Outcome,
    ) -> u32;
    pub fn elfmap_link_verdict(
        files: *const Bytes,
        count: usize,
        options: &Options,
        entry: *const u8,
        entry_len: usize,
        rules: *const u8,
        rules_len: usize,
        outcome: &mut Outcome,
    ) -> u32;
    pub fn elfmap_link_place(
        files: *const Bytes,
        count: usize,
        rule: u16,
        file: u64,
        index: u64,
        entry: u64,
        place: &mut LinkPlace,
    ) -> u32;
}
