// A loop that is left by a break before its free.
// inputs: "" "abc" "ab!c"
#include <stdio.h>
#include <stdlib.h>

int main(void) {
    int c, count = 0;
    c = getchar();
    while (c != EOF) {
        int *seen = malloc(sizeof(int));
        if (seen == NULL) return 1;
        *seen = c;
        if (*seen == '!') break;
        count++;
        free(seen);
        c = getchar();
    }
    printf("%d\n", count);
    return 0;
}
