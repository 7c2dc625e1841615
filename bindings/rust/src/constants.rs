//! The numbers of the gABI for tables and records, by their names there. Made by `tools/release
//! tables` from the Python package, bindings/python/elfmap/constants.py.
//!
//! Numbers that processors and systems add are not here, but for those of machines.

/// A value of `e_type`.
pub const ET_NONE: u16 = 0;
/// A value of `e_type`.
pub const ET_REL: u16 = 1;
/// A value of `e_type`.
pub const ET_EXEC: u16 = 2;
/// A value of `e_type`.
pub const ET_DYN: u16 = 3;
/// A value of `e_type`.
pub const ET_CORE: u16 = 4;

/// A value of `e_machine`.
pub const EM_NONE: u16 = 0;
/// A value of `e_machine`.
pub const EM_MIPS: u16 = 8;
/// A value of `e_machine`.
pub const EM_PARISC: u16 = 15;
/// A value of `e_machine`.
pub const EM_PPC64: u16 = 21;
/// A value of `e_machine`.
pub const EM_S390: u16 = 22;
/// A value of `e_machine`.
pub const EM_SPARCV9: u16 = 43;
/// A value of `e_machine`.
pub const EM_IA_64: u16 = 50;
/// A value of `e_machine`.
pub const EM_X86_64: u16 = 62;
/// A value of `e_machine`.
pub const EM_AARCH64: u16 = 183;
/// A value of `e_machine`.
pub const EM_RISCV: u16 = 243;
/// A value of `e_machine`.
pub const EM_BPF: u16 = 247;
/// A value of `e_machine`.
pub const EM_LOONGARCH: u16 = 258;

/// A value of `st_shndx`.
pub const SHN_UNDEF: u16 = 0x0;
/// A value of `st_shndx`.
pub const SHN_ABS: u16 = 0xfff1;
/// A value of `st_shndx`.
pub const SHN_COMMON: u16 = 0xfff2;
/// A value of `st_shndx`.
pub const SHN_XINDEX: u16 = 0xffff;

/// A value of `sh_type`.
pub const SHT_NULL: u32 = 0;
/// A value of `sh_type`.
pub const SHT_PROGBITS: u32 = 1;
/// A value of `sh_type`.
pub const SHT_SYMTAB: u32 = 2;
/// A value of `sh_type`.
pub const SHT_STRTAB: u32 = 3;
/// A value of `sh_type`.
pub const SHT_RELA: u32 = 4;
/// A value of `sh_type`.
pub const SHT_HASH: u32 = 5;
/// A value of `sh_type`.
pub const SHT_DYNAMIC: u32 = 6;
/// A value of `sh_type`.
pub const SHT_NOTE: u32 = 7;
/// A value of `sh_type`.
pub const SHT_NOBITS: u32 = 8;
/// A value of `sh_type`.
pub const SHT_REL: u32 = 9;
/// A value of `sh_type`.
pub const SHT_SHLIB: u32 = 10;
/// A value of `sh_type`.
pub const SHT_DYNSYM: u32 = 11;
/// A value of `sh_type`.
pub const SHT_INIT_ARRAY: u32 = 14;
/// A value of `sh_type`.
pub const SHT_FINI_ARRAY: u32 = 15;
/// A value of `sh_type`.
pub const SHT_PREINIT_ARRAY: u32 = 16;
/// A value of `sh_type`.
pub const SHT_GROUP: u32 = 17;
/// A value of `sh_type`.
pub const SHT_SYMTAB_SHNDX: u32 = 18;
/// A value of `sh_type`.
pub const SHT_RELR: u32 = 19;

/// A flag of `sh_flags`.
pub const SHF_WRITE: u64 = 0x1;
/// A flag of `sh_flags`.
pub const SHF_ALLOC: u64 = 0x2;
/// A flag of `sh_flags`.
pub const SHF_EXECINSTR: u64 = 0x4;
/// A flag of `sh_flags`.
pub const SHF_MERGE: u64 = 0x10;
/// A flag of `sh_flags`.
pub const SHF_STRINGS: u64 = 0x20;
/// A flag of `sh_flags`.
pub const SHF_INFO_LINK: u64 = 0x40;
/// A flag of `sh_flags`.
pub const SHF_LINK_ORDER: u64 = 0x80;
/// A flag of `sh_flags`.
pub const SHF_OS_NONCONFORMING: u64 = 0x100;
/// A flag of `sh_flags`.
pub const SHF_GROUP: u64 = 0x200;
/// A flag of `sh_flags`.
pub const SHF_TLS: u64 = 0x400;
/// A flag of `sh_flags`.
pub const SHF_COMPRESSED: u64 = 0x800;

/// A value of `st_info`.
pub const STB_LOCAL: u8 = 0;
/// A value of `st_info`.
pub const STB_GLOBAL: u8 = 1;
/// A value of `st_info`.
pub const STB_WEAK: u8 = 2;

/// A value of `st_info`.
pub const STT_NOTYPE: u8 = 0;
/// A value of `st_info`.
pub const STT_OBJECT: u8 = 1;
/// A value of `st_info`.
pub const STT_FUNC: u8 = 2;
/// A value of `st_info`.
pub const STT_SECTION: u8 = 3;
/// A value of `st_info`.
pub const STT_FILE: u8 = 4;
/// A value of `st_info`.
pub const STT_COMMON: u8 = 5;
/// A value of `st_info`.
pub const STT_TLS: u8 = 6;

/// A value of `st_other`.
pub const STV_DEFAULT: u8 = 0;
/// A value of `st_other`.
pub const STV_INTERNAL: u8 = 1;
/// A value of `st_other`.
pub const STV_HIDDEN: u8 = 2;
/// A value of `st_other`.
pub const STV_PROTECTED: u8 = 3;

/// A value of `p_type`.
pub const PT_NULL: u32 = 0;
/// A value of `p_type`.
pub const PT_LOAD: u32 = 1;
/// A value of `p_type`.
pub const PT_DYNAMIC: u32 = 2;
/// A value of `p_type`.
pub const PT_INTERP: u32 = 3;
/// A value of `p_type`.
pub const PT_NOTE: u32 = 4;
/// A value of `p_type`.
pub const PT_SHLIB: u32 = 5;
/// A value of `p_type`.
pub const PT_PHDR: u32 = 6;
/// A value of `p_type`.
pub const PT_TLS: u32 = 7;

/// A flag of `p_flags`.
pub const PF_X: u32 = 0x1;
/// A flag of `p_flags`.
pub const PF_W: u32 = 0x2;
/// A flag of `p_flags`.
pub const PF_R: u32 = 0x4;

/// A value of `d_tag`.
pub const DT_NULL: i64 = 0;
/// A value of `d_tag`.
pub const DT_NEEDED: i64 = 1;
/// A value of `d_tag`.
pub const DT_PLTRELSZ: i64 = 2;
/// A value of `d_tag`.
pub const DT_PLTGOT: i64 = 3;
/// A value of `d_tag`.
pub const DT_HASH: i64 = 4;
/// A value of `d_tag`.
pub const DT_STRTAB: i64 = 5;
/// A value of `d_tag`.
pub const DT_SYMTAB: i64 = 6;
/// A value of `d_tag`.
pub const DT_RELA: i64 = 7;
/// A value of `d_tag`.
pub const DT_RELASZ: i64 = 8;
/// A value of `d_tag`.
pub const DT_RELAENT: i64 = 9;
/// A value of `d_tag`.
pub const DT_STRSZ: i64 = 10;
/// A value of `d_tag`.
pub const DT_SYMENT: i64 = 11;
/// A value of `d_tag`.
pub const DT_INIT: i64 = 12;
/// A value of `d_tag`.
pub const DT_FINI: i64 = 13;
/// A value of `d_tag`.
pub const DT_SONAME: i64 = 14;
/// A value of `d_tag`.
pub const DT_RPATH: i64 = 15;
/// A value of `d_tag`.
pub const DT_SYMBOLIC: i64 = 16;
/// A value of `d_tag`.
pub const DT_REL: i64 = 17;
/// A value of `d_tag`.
pub const DT_RELSZ: i64 = 18;
/// A value of `d_tag`.
pub const DT_RELENT: i64 = 19;
/// A value of `d_tag`.
pub const DT_PLTREL: i64 = 20;
/// A value of `d_tag`.
pub const DT_DEBUG: i64 = 21;
/// A value of `d_tag`.
pub const DT_TEXTREL: i64 = 22;
/// A value of `d_tag`.
pub const DT_JMPREL: i64 = 23;
/// A value of `d_tag`.
pub const DT_BIND_NOW: i64 = 24;
/// A value of `d_tag`.
pub const DT_INIT_ARRAY: i64 = 25;
/// A value of `d_tag`.
pub const DT_FINI_ARRAY: i64 = 26;
/// A value of `d_tag`.
pub const DT_INIT_ARRAYSZ: i64 = 27;
/// A value of `d_tag`.
pub const DT_FINI_ARRAYSZ: i64 = 28;
/// A value of `d_tag`.
pub const DT_RUNPATH: i64 = 29;
/// A value of `d_tag`.
pub const DT_FLAGS: i64 = 30;
/// A value of `d_tag`.
pub const DT_PREINIT_ARRAY: i64 = 32;
/// A value of `d_tag`.
pub const DT_PREINIT_ARRAYSZ: i64 = 33;
/// A value of `d_tag`.
pub const DT_SYMTAB_SHNDX: i64 = 34;
/// A value of `d_tag`.
pub const DT_RELRSZ: i64 = 35;
/// A value of `d_tag`.
pub const DT_RELR: i64 = 36;
/// A value of `d_tag`.
pub const DT_RELRENT: i64 = 37;
