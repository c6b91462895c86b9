#include <stdio.h>
#include <stdlib.h>

/* `text` is now an object of its own, now another name of `spare`. A free that is right for the one is wrong for the other. */
int main(void) {
    int c = getchar();
    int *spare = malloc(sizeof(int));
    if (spare == NULL) return 1;
    int *text = spare;
    if (c == 'n') {
        text = malloc(sizeof(int));
        if (text == NULL) return 1;
    }
    *text = c;
    *spare = 1;
    printf("%d %d\n", *text, *spare);
    return 0;
}
