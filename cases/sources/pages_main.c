#include "start.h"

// Parts with each kind of permission, some longer than a page; it prints where the system has put them, and how.
const char constant[9000] = "constant"; char filled[5000] = "filled"; static char zeros[20000]; int common[3000];
__attribute__((section(".both,\"awx\",@progbits#"))) char both[100] = { (char) 0xc3 };

static long call(long number, const void *first, void *second, long third) {
    long result;
    __asm__ volatile("syscall" : "=a"(result) : "a"(number), "D"(first), "S"(second), "d"(third) : "rcx", "r11", "memory");
    return result;
}
int begin(long *stack) {
    static char text[4096];
    long file = call(2, "/proc/self/maps", 0, 0), size;
    while ((size = call(0, (void *) file, text, sizeof text)) > 0) put(text, size);
    return constant[8999] + filled[4999] + zeros[19999] + common[2999] + both[99] + (stack[0] != 2);
}
