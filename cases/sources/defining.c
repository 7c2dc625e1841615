static int count; int common_value; const char *names[] = { "first", "second" };
__attribute__((weak)) double half(double x) { return x / 2; }
int counted(int x) { common_value += x; return ++count * 10 + x; }
void _start(void) { counted((int) half(3)); for (;;) {} }
