#include <stdio.h>
#include <stdlib.h>

struct buffer { int length; int *data; };

/* A struct with a buffer: where there is no buffer the struct is lost, and at the end the buffer is. */
struct buffer *make_buffer(int length) {
    struct buffer *made = malloc(sizeof(struct buffer));
    if (made == NULL) return NULL;
    made->data = malloc(length * sizeof(int));
    if (made->data == NULL) return NULL;
    made->length = length;
    return made;
}

int main(void) {
    struct buffer *squares = make_buffer(4);
    if (squares == NULL) return 1;
    for (int i = 0; i < squares->length; i++) squares->data[i] = i * i;
    printf("%d\n", squares->data[3]);
    free(squares);
    return 0;
}
