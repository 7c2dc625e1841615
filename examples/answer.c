static int calls;
int limit = 3;
int work(int);
const char *name(void) { return "answer"; }
int answer(int x) { return ++calls < limit ? work(x) : 42; }
