// A global pointer that is set again and again.
// inputs: "" "abc"
#include <stdio.h>
#include <stdlib.h>

int *last;
int remember(int value) {
    last = malloc(sizeof(int));
    if (last == NULL) return 0;
    *last = value;
    return 1;
}
int main(void) {
    int c = getchar();
    int ok = remember(1);
    if (ok) printf("%d\n", *last);
    ok = remember(c);
    if (ok && last != NULL) printf("%d\n", *last);
    return 0;
}
