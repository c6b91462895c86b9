// A function that frees its argument, though a caller goes on with it.
// inputs: ""
#include <stdio.h>
#include <stdlib.h>

void show_and_drop(int *value) {
    printf("%d\n", *value);
    free(value);
}
int main(void) {
    int *x = malloc(sizeof(int));
    int *y;
    if (x == NULL) return 1;
    *x = 5;
    y = malloc(sizeof(int));
    if (y == NULL) {
        show_and_drop(x);
        return 2;
    }
    *y = 6;
    show_and_drop(y);
    show_and_drop(x);
    printf("%d\n", *x);
    return 0;
}
