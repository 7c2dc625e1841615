// A name as JSON, in which each character is a byte.
#include <stdio.h>

static void print_name(const char *name) {
    putchar('"');
    for (; name && *name; name++) {
        unsigned char byte = *name;
        if (byte < 0x20 || byte > 0x7e || byte == '"' || byte == '\\') printf("\\u%04x", byte);
        else putchar(byte);
    }
    putchar('"');
}
