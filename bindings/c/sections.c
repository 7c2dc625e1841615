/*
 * sections FILE: prints the size and the name of each section of an ELF-64 file; of any other file, as `elfmap check` does, the first rule
 * that it breaks and where, with status 1. In a release: cc -std=c99 sections.c $(pkg-config --cflags --libs elfmap) -o sections
 */
#include <elfmap.h>
#include <inttypes.h>
#include <stdio.h>
#include <stdlib.h>

/* The bytes of a file, NULL where it can't be read; how many there are is in `len`. */
static uint8_t *bytes_of(const char *path, size_t *len) {
    FILE *file = fopen(path, "rb");
    long size = file != NULL && fseek(file, 0, SEEK_END) == 0 ? ftell(file) : -1;
    uint8_t *bytes = size < 0 ? NULL : malloc((size_t) size + 1);
    if (bytes != NULL && (fseek(file, 0, SEEK_SET) != 0 || fread(bytes, 1, (size_t) size, file) != (size_t) size)) {
        free(bytes);
        bytes = NULL;
    }
    if (file != NULL)
        fclose(file);
    *len = (size_t) size;
    return bytes;
}

/*
 * Ends a line with a name. Bytes that are not printable ASCII are escaped, because a terminal may obey them. A backslash is written twice:
 * so two names differ in print too.
 */
static void print_name(const uint8_t *name, uint64_t len) {
    for (uint64_t k = 0; k < len; k++)
        printf(name[k] == '\\' ? "\\%c" : name[k] >= ' ' && name[k] <= '~' ? "%c" : "\\x%02x", name[k]);
    putchar('\n');
}

/* Prints the sections, or the fault: true where there is none. */
static bool print_sections(const uint8_t *bytes, size_t len) {
    struct elfmap_fault fault;
    struct elfmap_file file;
    struct elfmap_section section;
    struct elfmap_extent name;
    if (!elfmap_verdict(bytes, len, &fault)) {
        printf("refused %u %" PRIu64 "\n", (unsigned) fault.rule, fault.at);
        return false;
    }
    if (elfmap_file(bytes, len, &file))
        for (uint64_t i = 0; elfmap_section(&file, bytes, len, i, &section) && elfmap_name(&file, bytes, len, i, &name); i++) {
            printf("0x%" PRIx64 " ", section.sh_size);
            print_name(bytes + name.start, name.len);
        }
    return true;
}

int main(int argc, char **argv) {
    size_t len = 0;
    uint8_t *bytes = argc == 2 ? bytes_of(argv[1], &len) : NULL;
    if (bytes == NULL) {
        fprintf(stderr, argc == 2 ? "sections: the file can't be read\n" : "usage: sections FILE\n");
        return argc == 2 ? 3 : 2;
    }
    bool sound = print_sections(bytes, len);
    free(bytes);
    return sound ? 0 : 1;
}
