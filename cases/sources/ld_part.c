extern int counter, common, *pointer; extern long start(int);
const char *words[] = { "first", "second", "third" }; int table[12] = { 1, 2, 3 }; char buffer[3000]; static char own[7]; int shared;
__attribute__((weak)) int limit(int x) { return x < 3 ? 3 : x; }
long sum(const int *all, int count) {
    long it = (long) own & 1;
    for (int i = 0; i < count; i++) {
        switch (all[i]) {
        case 0: it += start(i); break;
        case 1: it += buffer[i] + *pointer; break;
        case 2: it *= words[i] - buffer; break;
        case 3: it -= common; break;
        case 4: own[i] ^= 1; break;
        case 5: it = own[i] + counter; break;
        default: it++;
        }
    }
    return it;
}
