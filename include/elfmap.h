/*
 * elfmap for C: whether an ELF-64 file breaks a rule, which one and where; and the records and tables of a file that breaks none.
 *
 * Compile a program with a release, whose directory lib/pkgconfig is in PKG_CONFIG_PATH, or in the top directory of the sources:
 *
 *     cc -std=c99 program.c $(pkg-config --cflags --libs elfmap)
 *     cc -std=c99 program.c -I include crates/elf_c/out/libelfmap.a
 *
 * The calls, except the engines at the end, need nothing, not even the C library. They take no memory, keep no state between two calls and
 * have no variable of their own. So you may call them from any thread and from a signal handler, also while another call runs. The engines
 * take memory; their part of this file says more.
 *
 *     struct elfmap_fault fault;
 *     struct elfmap_file file;
 *     struct elfmap_section section;
 *     if (!elfmap_verdict(bytes, len, &fault))
 *         printf("refused %u %llu\n", (unsigned) fault.rule, (unsigned long long) fault.at);
 *     else if (elfmap_file(bytes, len, &file))
 *         for (uint64_t i = 0; elfmap_section(&file, bytes, len, i, &section); i++)
 *             printf("section %llu has %llu bytes\n", (unsigned long long) i, (unsigned long long) section.sh_size);
 *
 * What this file says of a call's result, of the buffer and of the struct that it fills in is proved, for all bytes. Times are not proved,
 * and neither is that memory is freed. The caller must ensure:
 * - Each pointer is aligned for its type, and none is null, except one whose length is 0: with null too it is an empty list. This exception
 *   is tested, and not proved.
 * - A pointer with a length after it points to as many items: `bytes` and `len`, `name` and `name_len`, `rules` and `rules_len`, `files`
 *   and `count`, a buffer and its `count` or `size`. None of them is longer than PTRDIFF_MAX bytes.
 * - During a call nobody writes what the call gets as const, and nobody reads or writes the buffer or the struct that it fills in.
 * - The struct that a call fills in, and the buffer, overlap neither one another nor another argument.
 *
 * Offsets and lengths are in bytes from the beginning of the file. Fields have the names of the gABI (System V ABI, generic part, chapters
 * 4 and 5). Numbers in records are those of the file, in the byte order of the machine. The rules are in docs/RULES.md.
 */
#ifndef ELFMAP_H
#define ELFMAP_H

#include <stdbool.h>
#include <stddef.h>
#include <stdint.h>

#ifdef __cplusplus
extern "C" {
#endif

/*
 * The version of this header, a `uint64_t`: 1,000,000 MAJOR + 1,000 MINOR + PATCH, so 1000 is 0.1.0. Of versions with the same MAJOR the
 * later one has all calls of the earlier one.
 */
#define ELFMAP_VERSION UINT64_C(1000)

/* That of the library that is linked: a program that compares the two finds a header of another version. */
uint64_t elfmap_version(void);

/* In place of a rule's number, in a `uint16_t`: the buffer has too few items. No rule has this number. */
enum { ELFMAP_SHORT_ROOM = 0 };

/* The first of the rules 1 to 33 that a file breaks. */
struct elfmap_fault {
    uint64_t at;   /* the lowest offset at which it is broken */
    uint16_t rule; /* its number */
};

/* The bytes at the offsets from `start` to below `start + len`; none if `len` is 0. */
struct elfmap_extent {
    uint64_t start;
    uint64_t len;
};

/* What a part of a file belongs to, in a `uint64_t`. */
enum {
    ELFMAP_HEADER = 0,          /* the ELF header */
    ELFMAP_SECTION_HEADERS = 1, /* the section header table */
    ELFMAP_PROGRAM_HEADERS = 2, /* the program header table */
    ELFMAP_CONTENTS = 3         /* the content of section 0; that of section i is ELFMAP_CONTENTS + i */
};

/* In place of an owner, in a `uint64_t`: the part is a gap, which belongs to nothing. */
#define ELFMAP_GAP UINT64_MAX

/* The bytes at the offsets from `start` to below `start + len`, and what they belong to. */
struct elfmap_part {
    uint64_t start;
    uint64_t len;
    uint64_t owner;
};

/* What the accessors need of a file. */
struct elfmap_file {
    uint64_t e_phoff;    /* the offset of the program header table, 0 for none */
    uint64_t e_shoff;    /* the offset of the section header table, 0 for none */
    uint64_t sections;   /* how many section headers there are, also if e_shnum cannot hold it */
    uint64_t segments;   /* how many program headers there are, also if e_phnum cannot hold it */
    uint64_t name_table; /* the index of the section name string table, 0 for none, also if e_shstrndx cannot hold it */
    uint8_t ei_data;     /* the data encoding: 1 is ELFDATA2LSB, 2 is ELFDATA2MSB */
};

/* In which record of an owner a byte is, and in which field of it. */
struct elfmap_place {
    uint64_t entry;              /* the index of the record among those of the owner */
    struct elfmap_extent record; /* where the record is in the file */
    struct elfmap_extent field;  /* where the field is in the record */
};

/* The ELF header, with its fields as the file has them. */
struct elfmap_header {
    uint8_t e_ident[16];  /* the identification: magic number, class, data encoding, versions, and the ABI */
    uint16_t e_type;      /* the kind of file: 1 is relocatable, 2 executable, 3 shared, 4 a core */
    uint16_t e_machine;   /* the machine, as 62 for x86-64 */
    uint32_t e_version;   /* the version of the format, 1 */
    uint64_t e_entry;     /* the address at which the program begins, 0 for none */
    uint64_t e_phoff;     /* the offset of the program header table, 0 for none */
    uint64_t e_shoff;     /* the offset of the section header table, 0 for none */
    uint32_t e_flags;     /* flags of the machine */
    uint16_t e_ehsize;    /* the size of this header, 64 */
    uint16_t e_phentsize; /* the size of a program header */
    uint16_t e_phnum;     /* how many program headers there are; `0xffff` where section header 0 says it */
    uint16_t e_shentsize; /* the size of a section header */
    uint16_t e_shnum;     /* how many section headers there are; 0 also where section header 0 says it */
    uint16_t e_shstrndx;  /* the section that has the names; `0xffff` where section header 0 says it */
};

/* A section header, with its fields as the file has them. */
struct elfmap_section {
    uint32_t sh_name;      /* where the name begins in the section name string table */
    uint32_t sh_type;      /* the kind of section */
    uint64_t sh_flags;     /* its flags: 1 is writable, 2 takes memory, 4 is executable */
    uint64_t sh_addr;      /* its address in memory, 0 for none */
    uint64_t sh_offset;    /* the offset of its content */
    uint64_t sh_size;      /* the size of its content; of a section without bytes in the file, that in memory */
    uint32_t sh_link;      /* the index of another section, which the type says */
    uint32_t sh_info;      /* a number that the type says */
    uint64_t sh_addralign; /* what its address is a multiple of; 0 and 1 say nothing */
    uint64_t sh_entsize;   /* the size of an entry, where the content is a table */
};

/* A program header, with its fields as the file has them. */
struct elfmap_segment {
    uint32_t p_type;   /* the kind of segment; 1 is loaded */
    uint32_t p_flags;  /* its permissions: 1 is executable, 2 writable, 4 readable */
    uint64_t p_offset; /* the offset of its bytes in the file */
    uint64_t p_vaddr;  /* its address in memory */
    uint64_t p_paddr;  /* its physical address, where that counts */
    uint64_t p_filesz; /* how many bytes it has in the file */
    uint64_t p_memsz;  /* how many bytes it has in memory */
    uint64_t p_align;  /* modulo which its address and its offset agree; 0 and 1 say nothing */
};

/* What the accessors of a table's entries need. If a part has no bytes, its `len` is 0. */
struct elfmap_table {
    struct elfmap_extent content; /* the content of the section */
    struct elfmap_extent linked;  /* of a symbol table its index table (SHT_SYMTAB_SHNDX), of a hash table its symbol table */
    struct elfmap_extent strings; /* of a symbol table and a hash table the symbols' names, of a dynamic array the strings of its entries */
    uint64_t entries;             /* how many there are; in a dynamic array those before the first one with tag DT_NULL (0), in a note
                                     section those before the first one that is cut, in a group, an index table and a hash table words */
    uint32_t sh_type;             /* the type of the section */
    uint8_t ei_data;              /* the data encoding: 1 is ELFDATA2LSB, 2 is ELFDATA2MSB */
};

/* An entry of a symbol table, with its name and its section. */
struct elfmap_symbol {
    struct elfmap_extent name; /* where its name is in the file, without its closing zero */
    uint64_t st_value;
    uint64_t st_size;
    uint32_t st_name;
    uint32_t section; /* `st_shndx`, or the word of the index table if that is SHN_XINDEX (0xffff): the index of its section, unless
                         `st_shndx` is 0 or from 0xff00 to 0xfffe */
    uint16_t st_shndx;
    uint8_t st_info;
    uint8_t st_other;
};

/* An entry of a relocation section. */
struct elfmap_relocation {
    uint64_t r_offset;        /* where it applies: in a relocatable file the offset in the section that `sh_info` names */
    int64_t r_addend;         /* the constant that is added; 0 in a section of type `SHT_REL` (9), where the relocated bytes have it */
    uint32_t symbol;          /* the index of the symbol in the symbol table that `sh_link` names, the upper half of `r_info` */
    uint32_t relocation_type; /* the type, which is the machine's, the lower half of `r_info` */
};

/* An entry of a dynamic array. */
struct elfmap_dynamic {
    int64_t d_tag; /* what the entry is: 1 names a library that is needed */
    uint64_t d_un; /* its number or its address (`d_val` or `d_ptr`), as the tag says */
};

/* A note of a note section. */
struct elfmap_note {
    struct elfmap_extent name; /* where its name is in the file, without its closing zero and its padding */
    struct elfmap_extent desc; /* where its descriptor is in the file, without its padding */
    uint64_t next;             /* where the next note begins, in bytes from the beginning of the section */
    uint32_t n_type;
};

/* ---- The verdict. It never changes the bytes. */

/*
 * True exactly if the file breaks none of the 33 rules; `fault` is unchanged then. Otherwise false, and `fault` is the first rule broken
 * and the lowest offset at which it is. If the contents of sections are not in the order of their headers, it compares every two of them.
 * This takes the square of their number; elfmap_verdict_in does not.
 */
bool elfmap_verdict(const uint8_t *bytes, size_t len, struct elfmap_fault *fault);

/*
 * The result of elfmap_verdict, in n log n for any file. The caller lends a buffer of `count` extents, which is overwritten. A file that
 * breaks none of rules 1 to 32 needs three extents, and one for each section header. If there are fewer, the result is false,
 * `fault->rule` is ELFMAP_SHORT_ROOM, `fault->at` is how many are needed, and rule 33 is not tested. A file that breaks one of rules 1 to
 * 32 needs no buffer.
 */
bool elfmap_verdict_in(const uint8_t *bytes, size_t len, struct elfmap_extent *buffer, size_t count, struct elfmap_fault *fault);

/*
 * What each byte of the file belongs to. The caller lends a buffer of `count` parts, which is overwritten. True exactly if the file breaks
 * none of the 33 rules and the buffer has as many parts as are needed. Then `parts` is how many parts the file has, and these are the first
 * ones in the buffer: in ascending order from offset 0 to the end, each byte in exactly one of them, none of them empty. They are the
 * header, the section header table, the program header table and the content of each section, if it has a byte, and the gaps between them,
 * each as long as it can be.
 *
 * Otherwise false, `parts` is unchanged, and `fault` is that of elfmap_verdict. If the file breaks none of rules 1 to 32 and the buffer has
 * too few parts, `fault->rule` is ELFMAP_SHORT_ROOM, and `fault->at` is how many are needed: ten, and three for each section header. If the
 * result is true, `fault` is unchanged. It takes n log n for any file.
 */
bool elfmap_parts(const uint8_t *bytes, size_t len, struct elfmap_part *buffer, size_t count, uint64_t *parts, struct elfmap_fault *fault);

/*
 * ---- The records. Each call, but elfmap_sections, returns true and fills in its last argument, or returns false and leaves it unchanged.
 * None of them changes the bytes or the file. The time of a call does not grow with the file, but with the length of a name, in elfmap_load
 * with the count of program headers, in elfmap_owner and elfmap_section_named with that of section headers, in elfmap_place with the notes
 * before the byte, and in elfmap_sections with what fits in the buffer.
 *
 * These calls do not validate. If bytes break a rule, all but elfmap_load and elfmap_name return what is where the header and the section
 * headers say, if that lies in the file. The claims for elfmap_load and elfmap_name are about files that break none of rules 1 to 32.
 * `file` must be what elfmap_file made of the same bytes. With other numbers in it, or with other bytes, the results of elfmap_load and
 * elfmap_name have no meaning, and the other calls use these numbers. Even then no call reads outside of the bytes.
 */

/*
 * What the other calls need of the file. False exactly if the file is shorter than a header, or has a section header table whose first
 * entry does not lie in it. True if the file breaks none of rules 1 to 32.
 */
bool elfmap_file(const uint8_t *bytes, size_t len, struct elfmap_file *file);

/* The ELF header. False exactly if the file is shorter than the header, 64 bytes. */
bool elfmap_header(const uint8_t *bytes, size_t len, struct elfmap_header *header);

/*
 * Section header `index`: the one at `file->e_shoff + 64 * index`. True exactly if `index` is below `file->sections` and these 64 bytes lie
 * in the file. If the file breaks none of rules 1 to 32, they do for each such index.
 */
bool elfmap_section(const struct elfmap_file *file, const uint8_t *bytes, size_t len, uint64_t index, struct elfmap_section *section);

/*
 * Many of them at once: the section headers from index `first` on, one after the other, in the first slots of a buffer of `count` section
 * headers. Returns how many these are: all that are below `file->sections`, lie in the file, and fit. The other slots are unchanged.
 */
uint64_t elfmap_sections(const struct elfmap_file *file, const uint8_t *bytes, size_t len, uint64_t first, struct elfmap_section *buffer,
                         size_t count);

/*
 * Program header `index`: the one at `file->e_phoff + 56 * index`. True exactly if `index` is below `file->segments` and these 56 bytes lie
 * in the file. If the file breaks none of rules 1 to 32, they do for each such index.
 */
bool elfmap_segment(const struct elfmap_file *file, const uint8_t *bytes, size_t len, uint64_t index, struct elfmap_segment *segment);

/*
 * The byte that the loadable segments (PT_LOAD, 1) give an address. It comes from the first segment, in the order of the program headers,
 * that has the address among its `p_memsz` addresses from `p_vaddr` on: the byte of the file, or 0 after its `p_filesz` bytes there. If the
 * file breaks none of rules 1 to 32, the result is true exactly if some loadable segment has the address.
 */
bool elfmap_load(const struct elfmap_file *file, const uint8_t *bytes, size_t len, uint64_t address, uint8_t *byte);

/*
 * Where the name of section `index` is, without its closing zero. It always lies in the bytes, at offset `sh_name` of the section name
 * string table. Both numbers are 0 if the name has no bytes, as that of a section header of type SHT_NULL (0), or every name if the section
 * name string table is missing or empty. If the file breaks none of rules 1 to 32, the result is true exactly if `index` is below
 * `file->sections`. For other files it is also false if the section header does not lie in the file, or if the name is looked for in the
 * section name string table and the header of that does not.
 */
bool elfmap_name(const struct elfmap_file *file, const uint8_t *bytes, size_t len, uint64_t index, struct elfmap_extent *name);

/*
 * The index of the first section whose name is the `name_len` bytes at `name`, without a closing zero. True exactly if there is one. The
 * name is that of elfmap_name, which section headers of type SHT_NULL (0) do not have: the first section without a name is section 0. A
 * section is passed over if elfmap_name returns false for it. Of each name no more is read than `name_len` bytes and one.
 */
bool elfmap_section_named(const struct elfmap_file *file, const uint8_t *bytes, size_t len, const uint8_t *name, size_t name_len,
                          uint64_t *index);

/*
 * The lowest owner from `first` on that has the byte at `offset`: ELFMAP_HEADER, ELFMAP_SECTION_HEADERS, ELFMAP_PROGRAM_HEADERS, or
 * ELFMAP_CONTENTS + i for the content of section i. True exactly if there is one. A byte of a file that breaks rule 33 may have any number
 * of owners; elfmap_parts names the only one of a file that breaks none. The header takes 64 bytes, each table as many headers as `file`
 * counts, and a content what its section header says: nothing if the type is SHT_NULL (0) or SHT_NOBITS (8), or if the section header does
 * not lie in the file. The bytes of a table or content need not lie in the file.
 *
 *     for (uint64_t owner = 0; elfmap_owner(&file, bytes, len, offset, owner, &owner); owner++)
 *         printf("owner %llu\n", (unsigned long long) owner);
 */
bool elfmap_owner(const struct elfmap_file *file, const uint8_t *bytes, size_t len, uint64_t offset, uint64_t first, uint64_t *owner);

/*
 * The record of an owner that has the byte at `offset`, and the field of the record that has it. The records of an owner follow one another
 * from its first byte on: the header is one, and a table has its headers. By the type of its section header, a content has symbols
 * (SHT_SYMTAB 2, SHT_DYNSYM 11), relocations (SHT_RELA 4, SHT_REL 9), entries of a dynamic array (SHT_DYNAMIC 6), words of 4 bytes
 * (SHT_HASH 5, SHT_GROUP 17, SHT_SYMTAB_SHNDX 18), or notes (SHT_NOTE 7). Each byte of e_ident is a field of its own. The fields of a note
 * are three words, its name and its descriptor, the two with their padding. True exactly if the owner has the byte, and has such records;
 * false for a byte of a note that is cut, as elfmap_note_at is, and after it. The last record may pass the end of the owner, and that of
 * the file, unless it is a note.
 */
bool elfmap_place(const struct elfmap_file *file, const uint8_t *bytes, size_t len, uint64_t offset, uint64_t owner,
                  struct elfmap_place *place);

/*
 * ---- The tables. As above each call, but the four that fill a buffer, returns true and fills in its last argument, or returns false and
 * leaves it unchanged. It reads nothing outside of the bytes. A table is sound if it breaks none of rules 40 to 69. These calls do not test
 * them; elfmap_table_verdicts does. The claims below are about sound tables in files that break none of rules 1 to 32. Of a table that
 * breaks a rule the calls return the entries that lie in the file, but no symbol whose `st_shndx` is SHN_XINDEX (0xffff) and for which the
 * index table has no word. `table` must be what elfmap_table made of the same bytes. With other numbers in it a result has no meaning. But
 * each call returns false, or no entry, for a table of another kind than its own, by `sh_type`; only elfmap_string, which has no kind of
 * its own, reads the strings of any table.
 *
 *     struct elfmap_table table;
 *     struct elfmap_symbol symbol;
 *     if (elfmap_table(&file, bytes, len, i, &table))
 *         for (uint64_t j = 0; j < table.entries; j++)
 *             if (elfmap_symbol(&table, bytes, len, j, &symbol))
 *                 printf("%.*s\n", (int) symbol.name.len, (const char *) bytes + symbol.name.start);
 */

/*
 * What the other calls need of the table in section `index`: a symbol table (SHT_SYMTAB 2, SHT_DYNSYM 11), a relocation section (SHT_RELA
 * 4, SHT_REL 9), a note section (SHT_NOTE 7), a dynamic array (SHT_DYNAMIC 6), a hash table (SHT_HASH 5), a section group (SHT_GROUP 17) or
 * an index table (SHT_SYMTAB_SHNDX 18). If the file breaks none of rules 1 to 32, the result is false in exactly these cases: there is no
 * section with this index, its type is another one, or the section that it links to is not there, or, for a hash table, the section that
 * its symbol table links to. A note section links to none. The call goes once over the section headers for the index table of a symbol
 * table, over the entries of a dynamic array up to the first one with tag DT_NULL, and over the notes of a note section up to the first
 * that is cut. Otherwise its time does not grow with the file.
 */
bool elfmap_table(const struct elfmap_file *file, const uint8_t *bytes, size_t len, uint64_t index, struct elfmap_table *table);

/*
 * Symbol `index` of a symbol table, with the place of its name. The name always lies in the bytes, at offset `st_name` of `table->strings`;
 * both of its numbers are 0 if it has no bytes. `symbol->section` is no section's index if `st_shndx` is 0 (undefined) or from 0xff00 to
 * 0xfffe, as for an absolute symbol (SHN_ABS 0xfff1) and a common one (SHN_COMMON 0xfff2). True exactly if `index` is below
 * `table->entries`. The time grows only with the length of the name.
 */
bool elfmap_symbol(const struct elfmap_table *table, const uint8_t *bytes, size_t len, uint64_t index, struct elfmap_symbol *symbol);

/* Relocation `index` of a relocation section. True exactly if `index` is below `table->entries`. */
bool elfmap_relocation(const struct elfmap_table *table, const uint8_t *bytes, size_t len, uint64_t index,
                       struct elfmap_relocation *relocation);

/* Entry `index` of a dynamic array, before the first one with tag DT_NULL. True exactly if `index` is below `table->entries`. */
bool elfmap_dynamic(const struct elfmap_table *table, const uint8_t *bytes, size_t len, uint64_t index, struct elfmap_dynamic *entry);

/*
 * Word `index` of a section group, an index table or a hash table. Word 0 of a group has its flags, and each after it the index of a
 * section that is a member. An index table has a word for each symbol of its symbol table. A hash table begins with the number of its
 * buckets and that of its symbols; a word for each bucket and one for each symbol follow. True exactly if `index` is below
 * `table->entries`, also if the table breaks a rule.
 */
bool elfmap_word(const struct elfmap_table *table, const uint8_t *bytes, size_t len, uint64_t index, uint32_t *word);

/*
 * Many of them at once: the symbols of a symbol table, the relocations of a relocation section, the entries of a dynamic array, or the
 * words of a group, an index table or a hash table, from index `first` on, one after the other, in the first slots of a buffer of `count`
 * entries. Returns how many these are: all that are below `table->entries` and fit. The other slots are unchanged. Each entry is what the
 * call for one entry returns. If that returns false for a symbol of a table that breaks a rule, no symbol after it is in the buffer. The
 * time of elfmap_symbols also grows with the lengths of the names, which may share bytes. With a copy of the table in which `strings.len`
 * is 0 it looks for no names, and each is of no bytes.
 */
uint64_t elfmap_symbols(const struct elfmap_table *table, const uint8_t *bytes, size_t len, uint64_t first, struct elfmap_symbol *buffer,
                        size_t count);
uint64_t elfmap_relocations(const struct elfmap_table *table, const uint8_t *bytes, size_t len, uint64_t first,
                            struct elfmap_relocation *buffer, size_t count);
uint64_t elfmap_dynamics(const struct elfmap_table *table, const uint8_t *bytes, size_t len, uint64_t first,
                         struct elfmap_dynamic *buffer, size_t count);
uint64_t elfmap_words(const struct elfmap_table *table, const uint8_t *bytes, size_t len, uint64_t first, uint32_t *buffer,
                      size_t count);

/*
 * Where the string at an offset of `table->strings` is, without its closing zero. Use it for an entry of a dynamic array whose value is the
 * offset of a string, as with tag DT_NEEDED (1). The string always lies in the bytes, and both numbers are 0 if it has no bytes. True
 * exactly if the offset is below the length of the strings.
 */
bool elfmap_string(const struct elfmap_table *table, const uint8_t *bytes, size_t len, uint64_t offset, struct elfmap_extent *place);

/*
 * Note `index` of a note section. Its name and descriptor lie in the bytes, and the next note begins at `note->next`, if there is one. True
 * exactly if `index` is below `table->entries`, also if a note is cut. The time grows with the index, because the call goes over the notes
 * before it. elfmap_note_at goes on from one to the next.
 */
bool elfmap_note(const struct elfmap_table *table, const uint8_t *bytes, size_t len, uint64_t index, struct elfmap_note *note);

/*
 * The note that begins at an offset of the section: the first one at 0, each next one at `note->next` of the one before it. True exactly if
 * the note with its padding ends in the section; so it is false after the last one.
 */
bool elfmap_note_at(const struct elfmap_table *table, const uint8_t *bytes, size_t len, uint64_t offset, struct elfmap_note *note);

/*
 * Finds a symbol by its name of `name_len` bytes, without a closing zero, in the symbol table that a hash table links to. `symbol` is the
 * index of the first one with this name on the chain of the name's bucket. True exactly if a symbol from 1 on has the name. It takes the
 * time of the hash, and of one comparison for each symbol on the chain. Whatever the table holds, it visits no more symbols than there are.
 */
bool elfmap_find(const struct elfmap_table *table, const uint8_t *bytes, size_t len, const uint8_t *name, size_t name_len,
                 uint32_t *symbol);

/*
 * ---- Engines: what the commands `show`, `rewrite`, `map` and `link` of the program `elfmap` write, of bytes in memory.
 *
 * The output of an engine, a text or a file, is put into a buffer of `size` bytes that the caller lends. Each call returns a status. Each
 * but elfmap_link_place fills in `outcome`, whatever the status. A number in it that has no meaning for the status is 0. The three calls
 * named ..verdict and ..verdicts, and elfmap_link_place, have no output, and never return ELFMAP_SMALL_ROOM; of the others:
 *
 * - If the status is ELFMAP_DONE, ELFMAP_REFUSED, ELFMAP_NOT_LINKED or ELFMAP_TOO_LONG, the first `outcome->length` bytes of the buffer are
 *   the whole output, and the bytes after them are unchanged.
 * - If it is ELFMAP_SMALL_ROOM, the output is longer than the buffer: `outcome->length` is how long the buffer has to be, and it is
 *   unchanged. To ask for this length, pass a size of 0; the pointer may be null. Then `elfmap_show`, `elfmap_rewrite`, `elfmap_map` and
 *   `elfmap_link` take no memory for the output.
 * - If it is any other, there is no output, and the buffer is unchanged.
 *
 *     struct elfmap_outcome outcome;
 *     if (elfmap_show(bytes, len, NULL, 0, &outcome) == ELFMAP_SMALL_ROOM) {
 *         uint8_t *text = malloc(outcome.length);
 *         if (text && elfmap_show(bytes, len, text, outcome.length, &outcome) == ELFMAP_DONE)
 *             fwrite(text, 1, outcome.length, stdout);
 *         free(text);
 *     }
 *
 * The engines take memory by the three functions at the end of this file; a program that calls no engine needs none of them. A call holds
 * the records and tables of a file, or the objects of several files, their link map and copies of sections with bits, but no copy of the
 * files. Of its output it holds as many bytes as the buffer has, or twice as many while they grow. If the output is longer, these are freed,
 * and its length is found without it: that takes as much time again as without a buffer. `elfmap_rewrite` finds the length first. A call
 * frees all its memory before it returns, whatever the status. It keeps no state, so calls may run at the same time in several threads if
 * these three functions may. After an allocation that failed a call may ask again, before it ends with ELFMAP_NO_MEMORY.
 */

/* What an engine returns, a `uint32_t`. */
enum {
    ELFMAP_DONE = 0,       /* nothing is refused */
    ELFMAP_REFUSED = 1,    /* file `file` breaks rule `rule`, lowest at the offset `at`, and no file before it breaks any */
    ELFMAP_NOT_LINKED = 2, /* the files do not link: rule `rule` of the link is broken, first at entry `at` of `index` of file `file` */
    ELFMAP_TOO_LONG = 3,   /* the output would be longer than 2^30 bytes, or have 0xffff segments or more */
    ELFMAP_SMALL_ROOM = 4, /* the buffer is too small: it has to be `length` bytes long */
    ELFMAP_NO_MEMORY = 5,  /* out of memory */
    ELFMAP_BAD_RULES = 6   /* line `at` of the relocation rules is bad, and none before it; lines count from 1 */
};

/* A file of a link: its bytes in memory. */
struct elfmap_bytes {
    const uint8_t *bytes; /* the first one; it may be null where there is none */
    size_t len;           /* how many they are */
};

/* What a call of an engine returns beside its status. Files, indexes and entries count from 0. */
struct elfmap_outcome {
    uint64_t length; /* the length of the whole output, in bytes; of elfmap_table_verdicts, how many slots were filled */
    uint64_t at;     /* an offset, an entry or a line */
    uint64_t file;   /* which file */
    uint64_t index;  /* the position of a section or symbol in the file, as docs/RULES.md says for each rule of the link */
    uint16_t rule;   /* the number of the rule: 1 to 33 of an image, from 40 on of an object, or 1 to 16 of a link */
};

/* Where a link places sections. */
struct elfmap_options {
    uint64_t base;       /* the address at which placement begins: a multiple of `page`, or rule 1 of the link is broken */
    uint64_t page;       /* each output section begins at a multiple of it: a power of two, or rule 1 is broken */
    uint32_t uses_rules; /* for elfmap_map and elfmap_link_verdict: 0 if there are no relocation rules */
};

/*
 * The lines of `elfmap show` on a file: its header, its parts, its sections, its segments and the entries of its tables. Returns
 * ELFMAP_DONE, or ELFMAP_REFUSED with the line `refused R A` in the buffer.
 */
uint32_t elfmap_show(const uint8_t *bytes, size_t len, uint8_t *buffer, size_t size, struct elfmap_outcome *outcome);

/*
 * The verdicts on tables: slot k of the buffer gets the first of rules 40 to 69 that the table in section `first` + k breaks, with its
 * lowest offset, or rule 0 if it breaks none or the section holds no table. Returns ELFMAP_DONE, and `outcome->length` is how many slots
 * were filled: as many as there are sections from `first` on, but no more than `count`. The other slots are unchanged. Or it returns
 * ELFMAP_REFUSED by a rule of images. If it returns anything but ELFMAP_DONE, the buffer is unchanged. The memory that it takes does not
 * grow with the entries of the tables, except of one section group or hash table at a time. In hash tables, names of symbols of more than
 * 64 bytes take memory too: a few bytes for each place where such a name begins. Such a name is read once for each of these places.
 */
uint32_t elfmap_table_verdicts(const uint8_t *bytes, size_t len, uint64_t first, struct elfmap_fault *buffer, size_t count,
                               struct elfmap_outcome *outcome);

/*
 * The object that a relocatable file denotes, as a file in canonical layout. A file for which the buffer is too small is not made, so that
 * the memory of a call does not grow with it. Returns ELFMAP_DONE; or, without output, ELFMAP_REFUSED by a
 * rule of images or, from 40 on, of objects, or ELFMAP_TOO_LONG.
 */
uint32_t elfmap_rewrite(const uint8_t *bytes, size_t len, uint8_t *buffer, size_t size, struct elfmap_outcome *outcome);

/*
 * Whether elfmap_rewrite makes a file, without the file: ELFMAP_DONE, and `outcome->length` is how long that file is; or ELFMAP_REFUSED or
 * ELFMAP_TOO_LONG as it does.
 */
uint32_t elfmap_object_verdict(const uint8_t *bytes, size_t len, struct elfmap_outcome *outcome);

/*
 * The lines of `elfmap map` on `count` files: where the sections and names of their link are. The bytes of files may overlap. If
 * `options->uses_rules` is not 0, the relocated bytes of each section follow, by the relocation rules in the text `rules`
 * (docs/RULE_FILES.md; an empty text has no rule). Returns ELFMAP_DONE; ELFMAP_REFUSED with the line `file F refused R A` in the buffer;
 * ELFMAP_NOT_LINKED with the line `refused RULE FILE INDEX ENTRY`; or, without output, ELFMAP_BAD_RULES, which is tested first.
 */
uint32_t elfmap_map(const struct elfmap_bytes *files, size_t count, const struct elfmap_options *options, const uint8_t *rules,
                    size_t rules_len, uint8_t *buffer, size_t size, struct elfmap_outcome *outcome);

/*
 * The executable of `count` files, as `elfmap link` writes it, by these relocation rules. It begins at the symbol whose name is the
 * `entry_len` bytes at `entry`. Returns ELFMAP_DONE; or, without output, ELFMAP_BAD_RULES, which is tested first, ELFMAP_REFUSED,
 * ELFMAP_NOT_LINKED or ELFMAP_TOO_LONG.
 */
uint32_t elfmap_link(const struct elfmap_bytes *files, size_t count, const struct elfmap_options *options, const uint8_t *entry,
                     size_t entry_len, const uint8_t *rules, size_t rules_len, uint8_t *buffer, size_t size,
                     struct elfmap_outcome *outcome);

/*
 * Whether `count` files link, without the executable: by rules 1 to 11 of the link, and if `options->uses_rules` is not 0 by 12 to 16 too.
 * An `entry` of no bytes asks for no entry point. Returns ELFMAP_DONE, ELFMAP_REFUSED, ELFMAP_NOT_LINKED or ELFMAP_BAD_RULES, which is
 * tested first; `outcome->length` is 0. How long the executable would be is not tested.
 */
uint32_t elfmap_link_verdict(const struct elfmap_bytes *files, size_t count, const struct elfmap_options *options, const uint8_t *entry,
                             size_t entry_len, const uint8_t *rules, size_t rules_len, struct elfmap_outcome *outcome);

/* What a broken rule of the link is about. A number that has no meaning is 0. */
struct elfmap_link_place {
    uint64_t section; /* the index of the section that the rule is about, or of the section that holds the symbol or the relocation */
    uint64_t entry;   /* the index of the symbol or the relocation in that section; of a section 0 */
    struct elfmap_extent record; /* where the section header, the symbol or the relocation is in the file; `len` is 0 if there is none */
    struct elfmap_extent name;   /* where the name of the symbol is in the file, or of the symbol that the relocation refers to, without its
                                    closing zero; `len` is 0 if it has no name */
    uint64_t first_file;         /* of rule 8 the file of the first definition of the name */
    uint64_t first_index;        /* its position in that file, as `index` of an outcome */
};

/*
 * What a rule of the link is about that `count` files break: `rule`, `file`, `index` and `entry` are those of an outcome with the status
 * ELFMAP_NOT_LINKED (in `entry` its `at`) or of a line `refused RULE FILE INDEX ENTRY`. Rules 3 to 5 are about a section header, 6 to 9
 * about a symbol, 12 to 16 about a relocation; the others are about no record, and neither is one that is not there, or in a file that is
 * refused. Of a file that is an object it is the one at this position of the object: sections count without those that an object leaves
 * out, and symbols from symbol 1 on. `first_file` and `first_index` are the first GLOBAL definition of the name that the symbol of rule 8
 * has, if each file is an object: in the order of the files and their symbols, and not in a section that the link discards. If a file is no
 * object they are 0, as those of symbol 1 of file 0 are too. Returns ELFMAP_DONE; or ELFMAP_NO_MEMORY, and then the struct is unchanged.
 */
uint32_t elfmap_link_place(const struct elfmap_bytes *files, size_t count, uint16_t rule, uint64_t file, uint64_t index, uint64_t entry,
                           struct elfmap_link_place *place);

/*
 * ---- The memory of the engines. The library defines these three functions over malloc, realloc and free. If a program defines all three,
 * its own are used, and it needs no malloc.
 *
 * A file of many megabytes is shown in less time if malloc keeps its memory, in large pieces and on large pages; a link of a million names
 * takes longer. With the GNU C library you set that before the first call by mallopt (M_MMAP_THRESHOLD and M_TRIM_THRESHOLD of 1 GiB and
 * more, M_TOP_PAD of 64 MiB), or in the environment by GLIBC_TUNABLES (glibc.malloc.mmap_threshold, trim_threshold, top_pad). Large pages
 * are set only there, by glibc.malloc.hugetlb=1.
 *
 * `align` is 1, 2, 4, 8 or 16, and `size` is at most PTRDIFF_MAX. `size` may be 0; if `is_there` is false then, this counts as out of
 * memory too. No function may call an engine, or leave by longjmp.
 */

/* Whether there is memory, and where: `start` is not null, even if there is none. */
struct elfmap_block {
    bool is_there;
    void *start;
};

/* New memory of `size` bytes, at a multiple of `align`, that nothing else holds. */
struct elfmap_block elfmap_alloc(size_t size, size_t align);

/*
 * Resizes the memory at `start`, which elfmap_alloc or elfmap_realloc returned, to `size` bytes. The first `kept` bytes stay the same;
 * `kept` is at most the old size and at most `size`. The memory may move. If there is none, the memory at `start` is unchanged and still
 * held.
 */
struct elfmap_block elfmap_realloc(void *start, size_t kept, size_t size, size_t align);

/* Frees the memory at `start`, which elfmap_alloc or elfmap_realloc returned. */
void elfmap_dealloc(void *start);

#ifdef __cplusplus
}
#endif

#endif
