#include <stdio.h>
#include <stdlib.h>

/* The object is freed before its last use. */
int main(void) {
    int *answer = malloc(sizeof(int));
    if (answer == NULL) return 1;
    *answer = getchar();
                ;
    int status = *answer == EOF;
     free(answer); return status;
}
