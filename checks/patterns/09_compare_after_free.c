// The freed pointer is still compared.
// inputs: ""
#include <stdio.h>
#include <stdlib.h>

int main(void) {
    int *a = malloc(sizeof(int));
    int *b = malloc(sizeof(int));
    if (a == NULL || b == NULL) return 1;
    *a = 1;
    *b = 2;
    free(a);
    if (a != b) printf("two objects %d\n", *b);
    free(b);
    return 0;
}
