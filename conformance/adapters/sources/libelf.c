// Prints what libelf reads of a file, as JSON in the form of the index. Status 1: libelf returns an error.
#include <elf.h>
#include <err.h>
#include <fcntl.h>
#include <gelf.h>
#include <stdio.h>
#include <stdlib.h>

#include "print_name.h"

static void fail(void) {
    fprintf(stderr, "%s\n", elf_errmsg(-1));
    exit(1);
}

static void print_header(Elf *elf) {
    GElf_Ehdr h;
    if (!gelf_getehdr(elf, &h)) fail();
    printf("\"header\":{\"type\":%u,\"machine\":%u,\"entry\":%lu,\"flags\":%u,\"phoff\":%lu,\"shoff\":%lu,", h.e_type,
           h.e_machine, h.e_entry, h.e_flags, h.e_phoff, h.e_shoff);
    printf("\"order\":\"%s\"},", h.e_ident[EI_DATA] == ELFDATA2MSB ? "big" : "little");
}

static void print_segments(Elf *elf) {
    size_t count;
    if (elf_getphdrnum(elf, &count)) fail();
    printf("\"segments\":[");
    for (size_t i = 0; i < count; i++) {
        GElf_Phdr p;
        if (!gelf_getphdr(elf, i, &p)) fail();
        printf("%s{\"type\":%u,\"flags\":%u,\"offset\":%lu,\"vaddr\":%lu,\"paddr\":%lu,", i ? "," : "", p.p_type, p.p_flags,
               p.p_offset, p.p_vaddr, p.p_paddr);
        printf("\"filesz\":%lu,\"memsz\":%lu,\"align\":%lu}", p.p_filesz, p.p_memsz, p.p_align);
    }
    printf("],");
}

static void print_sections(Elf *elf) {
    size_t count, names;
    if (elf_getshdrnum(elf, &count) || elf_getshdrstrndx(elf, &names)) fail();
    printf("\"sections\":[");
    for (size_t i = 0; i < count; i++) {
        GElf_Shdr s;
        if (!gelf_getshdr(elf_getscn(elf, i), &s)) fail();
        printf("%s{", i ? "," : "");
        if (names && s.sh_type != SHT_NULL) {
            const char *name = elf_strptr(elf, names, s.sh_name);
            if (!name && s.sh_name) fail();
            printf("\"name\":");
            print_name(name);
            printf(",");
        }
        printf("\"type\":%u,\"flags\":%lu,\"addr\":%lu,\"offset\":%lu,\"size\":%lu,", s.sh_type, s.sh_flags, s.sh_addr,
               s.sh_offset, s.sh_size);
        printf("\"link\":%u,\"info\":%u,\"addralign\":%lu,\"entsize\":%lu}", s.sh_link, s.sh_info, s.sh_addralign,
               s.sh_entsize);
    }
    printf("],");
}

// The data of the index table of a symbol table, if it has one.
static Elf_Data *index_table(Elf *elf, size_t of) {
    for (Elf_Scn *it = NULL; (it = elf_nextscn(elf, it));) {
        GElf_Shdr s;
        if (gelf_getshdr(it, &s) && s.sh_type == SHT_SYMTAB_SHNDX && s.sh_link == of) return elf_getdata(it, NULL);
    }
    return NULL;
}

static void print_symbols(Elf *elf, Elf_Scn *section, const GElf_Shdr *s) {
    Elf_Data *data = elf_getdata(section, NULL);
    Elf_Data *words = index_table(elf, elf_ndxscn(section));
    size_t count = data && s->sh_entsize ? s->sh_size / s->sh_entsize : 0;
    if (!data && s->sh_size) fail();
    for (size_t k = 0; k < count; k++) {
        GElf_Sym y;
        Elf32_Word far = 0;
        if (!gelf_getsymshndx(data, words, k, &y, &far)) fail();
        const char *name = y.st_name ? elf_strptr(elf, s->sh_link, y.st_name) : "";
        if (!name) fail();
        printf("%s{\"name\":", k ? "," : "");
        print_name(name);
        printf(",\"binding\":%u,\"type\":%u,\"other\":%u,", y.st_info >> 4, y.st_info & 15, y.st_other);
        printf("\"section\":%u,\"value\":%lu,\"size\":%lu}", y.st_shndx == SHN_XINDEX ? far : y.st_shndx, y.st_value,
               y.st_size);
    }
}

static void print_relocations(Elf_Scn *section, const GElf_Shdr *s) {
    Elf_Data *data = elf_getdata(section, NULL);
    size_t count = data && s->sh_entsize ? s->sh_size / s->sh_entsize : 0;
    if (!data && s->sh_size) fail();
    for (size_t k = 0; k < count; k++) {
        GElf_Rela r;
        GElf_Rel plain;
        if (s->sh_type == SHT_RELA ? !gelf_getrela(data, k, &r) : !gelf_getrel(data, k, &plain)) fail();
        if (s->sh_type == SHT_REL) r = (GElf_Rela){plain.r_offset, plain.r_info, 0};
        printf("%s{\"offset\":%lu,\"symbol\":%lu,\"type\":%lu", k ? "," : "", r.r_offset, GELF_R_SYM(r.r_info),
               GELF_R_TYPE(r.r_info));
        if (s->sh_type == SHT_RELA) printf(",\"addend\":%ld", r.r_addend);
        printf("}");
    }
}

static void print_tables(Elf *elf, const char *title, unsigned first, unsigned second) {
    int many = 0;
    printf("\"%s\":{", title);
    for (Elf_Scn *it = NULL; (it = elf_nextscn(elf, it));) {
        GElf_Shdr s;
        if (!gelf_getshdr(it, &s)) fail();
        if (s.sh_type != first && s.sh_type != second) continue;
        printf("%s\"%zu\":[", many++ ? "," : "", elf_ndxscn(it));
        if (first == SHT_SYMTAB) print_symbols(elf, it, &s);
        else print_relocations(it, &s);
        printf("]");
    }
    printf("}");
}

int main(int argc, char **argv) {
    if (argc > 1 && argv[1][0] == '-') return printf("libelf\n") < 0;
    elf_version(EV_CURRENT);
    int file = open(argv[1], O_RDONLY);
    Elf *elf = elf_begin(file, ELF_C_READ, NULL);
    if (!elf) fail();
    if (elf_kind(elf) != ELF_K_ELF || gelf_getclass(elf) != ELFCLASS64) errx(1, "no ELF-64 file");
    printf("{");
    print_header(elf);
    print_segments(elf);
    print_sections(elf);
    print_tables(elf, "symbols", SHT_SYMTAB, SHT_DYNSYM);
    printf(",");
    print_tables(elf, "relocations", SHT_RELA, SHT_REL);
    printf("}\n");
    return 0;
}
