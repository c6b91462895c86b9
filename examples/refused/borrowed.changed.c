#include <stdio.h>
#include <stdlib.h>

/* The object of its own has a variable of its own, which is NULL where there is no such object. */
int main(void) {
    int c = getchar();
    int *spare = malloc(sizeof(int));
    if (spare == NULL) return 1;
    int *text = spare;
    int *own = NULL;
    if (c == 'n') {
        own = malloc(sizeof(int));
        if (own == NULL) return 1;
        text = own;
    }
    *text = c;
    *spare = 1;
    printf("%d %d\n", *text, *spare);
    return 0;
}
