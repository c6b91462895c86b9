// A struct with a buffer: the struct is freed first, and its buffer is lost.
// inputs: ""
#include <stdio.h>
#include <stdlib.h>

struct buffer { int length; int *data; };
struct buffer *make_buffer(int length) {
    struct buffer *made = malloc(sizeof(struct buffer));
    if (made == NULL) return NULL;
    made->data = malloc(length * sizeof(int));
    if (made->data == NULL) return NULL;
    made->length = length;
    return made;
}
int main(void) {
    int i;
    struct buffer *b = make_buffer(6);
    if (b == NULL) return 1;
    for (i = 0; i < b->length; i++) b->data[i] = i * i;
    printf("%d\n", b->data[5]);
    free(b);
    return 0;
}
