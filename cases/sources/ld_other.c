extern long start(int); extern char buffer[]; int common; int limit(int x) { return x + 1; }
struct { char letter; char *end; long (*go)(int); } __attribute__((packed)) odd = { 'x', buffer + 2999, start };
asm(".section .text.once,\"axG\",@progbits,once,comdat\n.weak once\nonce: nop\ncall limit\nret\n.previous");
void *again(void) { return &odd; }
