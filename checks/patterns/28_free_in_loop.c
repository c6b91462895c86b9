// The free stands in the loop that still uses the object.
// inputs: ""
#include <stdio.h>
#include <stdlib.h>

int main(void) {
    int i, sum = 0;
    int *table = malloc(4 * sizeof(int));
    if (table == NULL) return 1;
    for (i = 0; i < 4; i++) table[i] = i;
    for (i = 0; i < 4; i++) {
        sum += table[i];
        free(table);
    }
    printf("%d\n", sum);
    return 0;
}
