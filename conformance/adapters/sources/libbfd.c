// Prints what libbfd reads of a file, as JSON: its sections by their names, and the names of its symbols.
#define PACKAGE "conformance"
#define PACKAGE_VERSION "1"
#include <bfd.h>
#include <stdio.h>
#include <stdlib.h>

#include "print_name.h"

static void fail(void) {
    fprintf(stderr, "%s\n", bfd_errmsg(bfd_get_error()));
    exit(1);
}

static int many;

static void print_section(bfd *file, asection *it, void *none) {
    (void) file, (void) none;
    printf("%s[", many++ ? "," : "");
    print_name(bfd_section_name(it));
    printf(",%lu,%lu]", (unsigned long) bfd_section_vma(it), (unsigned long) bfd_section_size(it));
}

int main(int argc, char **argv) {
    if (argc > 1 && argv[1][0] == '-') return printf("libbfd\n") < 0;
    bfd_init();
    bfd *file = bfd_openr(argv[1], NULL);
    if (!file || !bfd_check_format(file, bfd_object)) fail();
    printf("{\"named_sections\":[");
    bfd_map_over_sections(file, print_section, NULL);
    long room = bfd_get_symtab_upper_bound(file);
    if (room < 0) fail();
    asymbol **symbols = malloc(room ? room : 1);
    long count = symbols ? bfd_canonicalize_symtab(file, symbols) : -1;
    if (count < 0) fail();
    printf("],\"symbol_names\":[");
    for (long k = 0; k < count; k++) {
        printf(k ? "," : "");
        print_name(symbols[k]->flags & BSF_SECTION_SYM ? "" : bfd_asymbol_name(symbols[k]));
    }
    printf("]}\n");
    return 0;
}
