// A matrix of numbers in one buffer, a copy of it, and an error between the two.
// inputs: "" "t"
#include <stdio.h>
#include <stdlib.h>

int *transposed(int *m, int rows, int columns) {
    int i, j;
    int *t = malloc(rows * columns * sizeof(int));
    if (t == NULL) return NULL;
    for (i = 0; i < rows; i++)
        for (j = 0; j < columns; j++) t[j * rows + i] = m[i * columns + j];
    return t;
}
int main(void) {
    int i, c = getchar();
    int *m = malloc(6 * sizeof(int));
    int *t;
    if (m == NULL) return 1;
    for (i = 0; i < 6; i++) m[i] = i;
    if (c == 't') printf("transposed\n");
    t = transposed(m, 2, 3);
    if (t == NULL) return 2;
    for (i = 0; i < 6; i++) printf("%d ", t[i]);
    printf("\n");
    free(t);
    return 0;
}
