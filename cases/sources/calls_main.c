#include "start.h"

extern long step(int, long); extern int shared; int common[10]; static char zeros[100000]; char filled[5000] = "filled";
extern int nowhere(int) __attribute__((weak)); __attribute__((weak)) int kept(void) { return 7; }
__attribute__((weak)) int replaced(void) { return 1; }
const char *words[] = { "zero ", "one ", "two " }; long (*by_table[])(int, long) = { step, step };
int begin(long *stack) {
    long it = stack[0] - 1;
    for (int i = 0; i < 40; i++) it = by_table[i % 2](i % 9, it + common[i % 10] + zeros[i * 2000]);
    for (int i = 0; i < 100000; i++) if (zeros[i]) return 1;
    zeros[99999] = 1; common[9] = 5; shared += common[9];
    say(words[it % 3 < 0 ? 0 : it % 3]); number(it); number(shared); number(nowhere ? nowhere(1) : -1); number(kept()); number(replaced());
    say(filled); number((long) &filled[4999] - (long) filled); number(zeros[99999]);
    return (int) (it & 63);
}
