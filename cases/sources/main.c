#include <stdio.h>
#include <string.h>
extern int counted(int); extern const char *names[]; extern double half(double); int common_value; extern __thread int own;
static int twice(int x) { return 2 * x; }
int (*table[])(int) = { counted, twice };
int main(void) {
    own = 5;
    for (int i = 0; i < 4; i++) printf("%d %s\n", table[i % 2](i), names[i % 2]);
    printf("%.2f %d %zu %d\n", half(3), common_value, strlen(names[0]), own);
    return 0;
}
