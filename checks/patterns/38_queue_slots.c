// Two slots that take turns: the older object is to go before its slot is used again.
// inputs: "" "abcdef"
#include <stdio.h>
#include <stdlib.h>

int main(void) {
    int c = getchar();
    int *older = NULL, *newer = NULL;
    while (c != EOF) {
        older = newer;
        newer = malloc(sizeof(int));
        if (newer == NULL) return 1;
        *newer = c;
        if (older != NULL) printf("%d %d\n", *older, *newer);
        c = getchar();
    }
    return 0;
}
