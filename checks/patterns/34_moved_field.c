// A buffer moves from one struct to another.
// inputs: ""
#include <stdio.h>
#include <stdlib.h>

struct holder { int *data; };
int main(void) {
    struct holder *from = malloc(sizeof(struct holder));
    struct holder *to = malloc(sizeof(struct holder));
    if (from == NULL || to == NULL) return 1;
    to->data = NULL;
    from->data = malloc(sizeof(int));
    if (from->data == NULL) return 2;
    *from->data = 11;
    to->data = from->data;
    from->data = NULL;
    printf("%d\n", *to->data);
    free(from);
    free(to);
    return 0;
}
