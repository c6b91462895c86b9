// A search that returns as soon as it finds something.
// inputs: "" "abcx" "x"
#include <stdio.h>
#include <stdlib.h>

int find(int what) {
    int *seen = malloc(64 * sizeof(int));
    int at, c;
    if (seen == NULL) return -2;
    for (at = 0; at < 64; at++) {
        c = getchar();
        if (c == EOF) return -1;
        seen[at] = c;
        if (seen[at] == what) return at;
    }
    free(seen);
    return -1;
}
int main(void) {
    int at = find('x');
    printf("%d\n", at);
    return at < 0;
}
