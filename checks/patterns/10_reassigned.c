// The only pointer to an object gets another one.
// inputs: ""
#include <stdio.h>
#include <stdlib.h>

int main(void) {
    int *page = malloc(4 * sizeof(int));
    if (page == NULL) return 1;
    page[0] = 1;
    printf("%d\n", page[0]);
    page = malloc(8 * sizeof(int));
    if (page == NULL) return 2;
    page[7] = 2;
    printf("%d\n", page[7]);
    free(page);
    return 0;
}
