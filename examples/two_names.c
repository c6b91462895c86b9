#include <stdio.h>
#include <stdlib.h>

/* One object with two names: freed by the one, then used and freed by the other. */
int main(void) {
    int *table = malloc(4 * sizeof(int));
    if (table == NULL) return 1;
    for (int i = 0; i < 4; i++) table[i] = i;
    if (table[3] > 2) {
        int *entry = table;
        entry[0] = 10;
        free(entry);
    }
    printf("%d\n", table[0]);
    free(table);
    return 0;
}
