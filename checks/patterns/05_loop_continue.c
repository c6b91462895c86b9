// A continue goes past the free.
// inputs: "" "a b c" "   "
#include <stdio.h>
#include <stdlib.h>

int main(void) {
    int c, letters = 0;
    for (c = getchar(); c != EOF; c = c) {
        int *box = malloc(sizeof(int));
        if (box == NULL) return 1;
        *box = c;
        c = getchar();
        if (*box == ' ') continue;
        letters += 1;
        free(box);
    }
    printf("%d letters\n", letters);
    return 0;
}
