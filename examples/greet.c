void put(const char *text, long size);
void greet(void) { put("hello\n", 6); }
