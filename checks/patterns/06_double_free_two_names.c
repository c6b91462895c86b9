// Two names of one object, and both are freed.
// inputs: ""
#include <stdio.h>
#include <stdlib.h>

int main(void) {
    int *first = malloc(sizeof(int));
    int *again;
    if (first == NULL) return 1;
    *first = 3;
    again = first;
    printf("%d\n", *again);
    free(first);
    free(again);
    return 0;
}
