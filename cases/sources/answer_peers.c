static int calls; int limit = 3; int work(int); const char *name(void) { return "answer"; }
inline int twice(int x) { return 2 * x; } extern int twice(int);
int answer(int x) { return ++calls < limit ? work(twice(x)) : 42; } int work(int x) { return x; } void _start(void) { answer(1); }
