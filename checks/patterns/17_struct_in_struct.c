// A struct that points to another one with a buffer.
// inputs: ""
#include <stdio.h>
#include <stdlib.h>

struct inner { int *data; };
struct outer { struct inner *in; int size; };
int main(void) {
    struct outer *o = malloc(sizeof(struct outer));
    struct inner *i;
    if (o == NULL) return 1;
    i = malloc(sizeof(struct inner));
    if (i == NULL) return 2;
    i->data = malloc(2 * sizeof(int));
    if (i->data == NULL) return 3;
    o->in = i;
    o->size = 2;
    o->in->data[1] = 8;
    printf("%d\n", o->in->data[1]);
    return 0;
}
