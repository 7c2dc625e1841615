static long calls;
long limit = 3;
long next(void) { return ++calls < limit ? calls : limit; }
