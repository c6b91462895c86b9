// Freed in a branch and again behind it.
// inputs: "" "q" "z"
#include <stdio.h>
#include <stdlib.h>

int main(void) {
    int c = getchar();
    int *mode = malloc(sizeof(int));
    if (mode == NULL) return 1;
    *mode = c;
    if (c == 'q') {
        printf("quit %d\n", *mode);
        free(mode);
    } else {
        printf("go on %d\n", *mode);
    }
    free(mode);
    return 0;
}
