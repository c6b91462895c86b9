// A request that is tried again, and whose first object is lost.
// inputs: ""
#include <stdio.h>
#include <stdlib.h>

int main(void) {
    int tries = 0;
    int *big = malloc(1000 * sizeof(int));
    while (big == NULL && tries < 3) {
        big = malloc(10 * sizeof(int));
        tries++;
    }
    if (big == NULL) return 1;
    big[9] = tries;
    printf("%d\n", big[9] < 4);
    return 0;
}
