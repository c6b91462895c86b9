// A buffer that is made only if it is needed.
// inputs: "" "y" "n"
#include <stdio.h>
#include <stdlib.h>

int main(void) {
    int c = getchar();
    int *extra = NULL;
    if (c == 'y') {
        extra = malloc(10 * sizeof(int));
        if (extra == NULL) return 1;
        extra[9] = c;
    }
    if (extra != NULL) printf("%d\n", extra[9]);
    return 0;
}
