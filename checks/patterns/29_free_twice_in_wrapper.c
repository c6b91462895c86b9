// A function that frees, and its caller who frees as well.
// inputs: ""
#include <stdio.h>
#include <stdlib.h>

void done(int *p) {
    printf("done %d\n", *p);
    free(p);
}
int main(void) {
    int *job = malloc(sizeof(int));
    if (job == NULL) return 1;
    *job = 4;
    done(job);
    free(job);
    return 0;
}
