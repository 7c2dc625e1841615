long next(void);
static void leave(long status) { asm volatile("syscall" : : "a"(60L), "D"(status) : "memory"); }
void start(void) { next(); next(); leave(next() + 39); }
