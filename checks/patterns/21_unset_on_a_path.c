// A pointer that is set on one path alone.
// inputs: "" "a" "b"
#include <stdio.h>
#include <stdlib.h>

int main(void) {
    int c = getchar();
    int *p;
    if (c == 'a') {
        p = malloc(sizeof(int));
        if (p == NULL) return 1;
        *p = c;
        printf("%d\n", *p);
    }
    return 0;
}
