// A stack of two cells that are pushed and popped.
// inputs: "" "12+"
#include <stdio.h>
#include <stdlib.h>

struct cell { int value; struct cell *below; };
struct cell *push(struct cell *top, int value) {
    struct cell *made = malloc(sizeof(struct cell));
    if (made == NULL) return NULL;
    made->value = value;
    made->below = top;
    return made;
}
int main(void) {
    struct cell *one = push(NULL, 20);
    struct cell *two;
    if (one == NULL) return 1;
    two = push(one, 22);
    if (two == NULL) return 2;
    printf("%d\n", two->value + two->below->value);
    free(two);
    return 0;
}
