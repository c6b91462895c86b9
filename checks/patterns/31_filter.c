// Two buffers, of which the second is made from the first and returned.
// inputs: "" "a1b2c3" "abc"
#include <stdio.h>
#include <stdlib.h>

int digits;
int *only_digits(int *all, int many) {
    int i;
    int *kept = malloc(many * sizeof(int));
    if (kept == NULL) return NULL;
    for (i = 0; i < many; i++) {
        if (all[i] >= '0' && all[i] <= '9') {
            kept[digits] = all[i];
            digits++;
        }
    }
    return kept;
}
int main(void) {
    int i, many = 0, c = getchar();
    int *all = malloc(100 * sizeof(int));
    int *kept;
    if (all == NULL) return 1;
    while (c != EOF && many < 100) {
        all[many] = c;
        many++;
        c = getchar();
    }
    kept = only_digits(all, many);
    if (kept == NULL) return 2;
    for (i = 0; i < digits; i++) putchar(kept[i]);
    putchar('\n');
    return 0;
}
