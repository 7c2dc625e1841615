// Prints what libelfin reads of a file, as JSON in the form of the index.
#include <elf/elf++.hh>
#include <cstdio>
#include <fcntl.h>
#include <string>

static void print_name(const std::string &name) {
    putchar('"');
    for (unsigned char byte : name) {
        if (byte < 0x20 || byte > 0x7e || byte == '"' || byte == '\\') printf("\\u%04x", byte);
        else putchar(byte);
    }
    putchar('"');
}

static void print_symbols(const elf::section &section, unsigned count) {
    unsigned k = 0;
    for (auto symbol : section.as_symtab()) {
        auto &data = symbol.get_data();
        printf("%s{\"name\":", k++ ? "," : "");
        print_name(symbol.get_name());
        printf(",\"binding\":%u,\"type\":%u,", unsigned(data.binding()), unsigned(data.type()));
        printf("\"value\":%lu,\"size\":%lu}", data.value, data.size);
    }
    (void) count;
}

int main(int argc, char **argv) {
    if (argc > 1 && argv[1][0] == '-') return printf("libelfin\n") < 0;
    try {
        elf::elf file(elf::create_mmap_loader(open(argv[1], O_RDONLY)));
        auto &h = file.get_hdr();
        printf("{\"header\":{\"type\":%u,\"entry\":%lu},\"segments\":[", unsigned(h.type), h.entry);
        int many = 0;
        for (auto &segment : file.segments()) {
            auto &p = segment.get_hdr();
            printf("%s{\"type\":%u,\"flags\":%u,\"offset\":%lu,\"vaddr\":%lu,\"paddr\":%lu,", many++ ? "," : "",
                   unsigned(p.type), unsigned(p.flags), p.offset, p.vaddr, p.paddr);
            printf("\"filesz\":%lu,\"memsz\":%lu,\"align\":%lu}", p.filesz, p.memsz, p.align);
        }
        printf("],\"sections\":[");
        many = 0;
        for (auto &section : file.sections()) {
            auto &s = section.get_hdr();
            printf("%s{\"type\":%u,\"flags\":%lu,\"addr\":%lu,\"offset\":%lu,\"size\":%lu,\"name\":", many++ ? "," : "",
                   unsigned(s.type), (unsigned long) s.flags, s.addr, s.offset, s.size);
            print_name(section.get_name());
            printf(",\"link\":%u,\"info\":%u,\"addralign\":%lu,\"entsize\":%lu}", unsigned(s.link), unsigned(s.info),
                   s.addralign, s.entsize);
        }
        printf("],\"symbols\":{");
        many = 0;
        unsigned index = 0;
        for (auto &section : file.sections()) {
            auto type = section.get_hdr().type;
            if (type == elf::sht::symtab || type == elf::sht::dynsym) {
                printf("%s\"%u\":[", many++ ? "," : "", index);
                print_symbols(section, 0);
                printf("]");
            }
            index++;
        }
        printf("}}\n");
    } catch (const std::exception &error) {
        fprintf(stderr, "%s\n", error.what());
        return 1;
    }
    return 0;
}
