static int calls;
int callee(int x) { return calls += x; }
