#include <stdio.h>
#include <stdlib.h>

/* The object is freed before its last use. */
int main(void) {
    int *answer = malloc(sizeof(int));
    if (answer == NULL) return 1;
    *answer = getchar();
    free(answer);
    int status = *answer == EOF;
    return status;
}
