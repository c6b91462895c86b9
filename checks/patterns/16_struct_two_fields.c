// Two buffers in one struct.
// inputs: ""
#include <stdio.h>
#include <stdlib.h>

struct grid { int *rows; int *columns; };
int main(void) {
    struct grid *g = malloc(sizeof(struct grid));
    if (g == NULL) return 1;
    g->rows = NULL;
    g->columns = NULL;
    g->rows = malloc(3 * sizeof(int));
    if (g->rows == NULL) return 2;
    g->columns = malloc(3 * sizeof(int));
    if (g->columns == NULL) return 3;
    g->rows[0] = 4;
    g->columns[0] = 5;
    printf("%d\n", g->rows[0] * g->columns[0]);
    free(g);
    return 0;
}
