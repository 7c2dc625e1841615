asm(".globl start\nstart: xor %ebp, %ebp\nmov %rsp, %rdi\nand $-16, %rsp\ncall begin\nmov %eax, %edi\nmov $60, %eax\nsyscall");
static long put(const char *text, long size) {
    long result;
    __asm__ volatile("syscall" : "=a"(result) : "a"(1), "D"(1), "S"(text), "d"(size) : "rcx", "r11", "memory");
    return result;
}
static void say(const char *text) { long n = 0; while (text[n]) n++; put(text, n); }
static void number(long it) {
    char digits[24]; int at = 24; unsigned long left = it < 0 ? -(unsigned long) it : it;
    digits[--at] = 10;
    do digits[--at] = '0' + left % 10; while (left /= 10);
    if (it < 0) digits[--at] = '-';
    put(digits + at, 24 - at);
}
