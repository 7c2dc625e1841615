#include <stdio.h>
#include <stdlib.h>
#include <string.h>
static int by_value(const void *a, const void *b) { return *(const int *) a - *(const int *) b; }
int main(int argc, char **argv) {
    int numbers[] = { 31, 4, 15, 92, 65, 35 }; char *text = malloc(100);
    qsort(numbers, 6, sizeof *numbers, by_value);
    for (int i = 0; i < 6; i++) printf("%d %s", numbers[i], i == 5 ? "\n" : "");
    strcpy(text, "allocated"); printf("%s %zu %#x %5.2s|\n", text, strlen(text), 48879, "cut");
    free(text);
    return argc + 40;
}
