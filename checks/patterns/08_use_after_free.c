// The free stands before the last use.
// inputs: "" "k"
#include <stdio.h>
#include <stdlib.h>

int main(void) {
    int *key = malloc(sizeof(int));
    int copy;
    if (key == NULL) return 1;
    *key = getchar();
    free(key);
    copy = *key;
    printf("%d\n", copy);
    return copy == 107;
}
