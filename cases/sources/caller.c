extern int common_value, counted(int); extern const char *names[]; static int own[9]; extern int absent(int) __attribute__((weak));
int (*calls[])(int) = { counted, absent }; int *place = &own[3];
__attribute__((weak)) double half(double x) { return x * 0.5; }
int caller(int x) { own[x] = names[x][0] + calls[x & 1](common_value); return absent ? absent(x) : counted(own[2]); }
__asm__(".section .rodata.far,\"a\"\n.quad counted - ., names + 8\n.section .text.once,\"axG\",@progbits,once,comdat\n.weak once\nonce: ret\n.previous");
