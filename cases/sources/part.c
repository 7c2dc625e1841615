static int count; extern int common_value; __thread int own;
const char *names[] = { "first", "second" };
__attribute__((weak)) double half(double x) { return x / 2; }
int counted(int x) { common_value += x; return ++count * 10 + x; }
