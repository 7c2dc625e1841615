int callee(int);
int main(void) { return callee(1); }
