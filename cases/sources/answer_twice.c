static int calls; int limit = 3; const char *name(void) { return "answer"; }
inline int twice(int x) { return 2 * x; } extern int twice(int); int work(int x) { return twice(x); }
int answer(int x) { return ++calls < limit ? work(x) : 42; }
