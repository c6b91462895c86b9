// An object of the outer loop and one of the inner loop.
// inputs: ""
#include <stdio.h>
#include <stdlib.h>

int main(void) {
    int i, j, total = 0;
    for (i = 0; i < 3; i++) {
        int *row = malloc(sizeof(int));
        if (row == NULL) return 1;
        *row = i;
        for (j = 0; j < 2; j++) {
            int *cell = malloc(sizeof(int));
            if (cell == NULL) return 2;
            *cell = j + *row;
            total += *cell;
        }
    }
    printf("%d\n", total);
    return 0;
}
