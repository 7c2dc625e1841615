void greet(void);
static long call(long number, long a, const void *b, long c) {
    long result;
    asm volatile("syscall" : "=a"(result) : "a"(number), "D"(a), "S"(b), "d"(c) : "rcx", "r11", "memory");
    return result;
}
void put(const char *text, long size) { call(1, 1, text, size); }
void start(void) { greet(); call(60, 0, 0, 0); }
