extern long sum(const int *, int); extern int table[], shared, limit(int); extern const char *words[];
extern int maybe(int) __attribute__((weak)); void once(void);
int common; int zeroed[40]; int counter = 3; int *pointer = &counter;
static int twice(int x) { return 2 * x; }
int (*calls[])(int) = { twice, limit, maybe };
long start(int i) {
    common += table[i] + zeroed[i] + words[i][1] + calls[i](counter);
    if (maybe) common += maybe(i);
    once();
    return sum(&table[2], limit(common)) + shared;
}
asm(".section .rodata.far,\"a\"\n.quad counter - ., sum - . + 8, maybe, zeroed + 40\n.previous");
asm(".section .text.once,\"axG\",@progbits,once,comdat\n.weak once\nonce: call start\nret\n.previous");
