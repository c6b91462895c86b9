#include <stdio.h>
#include <stdlib.h>

struct box { int *data; };

/* Answers 0 with an object in the box, or an error with NULL in it. */
int fill(struct box *box, int count) {
    box->data = NULL;
    if (count > 100) return 2;
    box->data = malloc(count * sizeof(int));
    if (box->data == NULL) return 1;
    box->data[0] = count;
    return 0;
}

/* The pointer itself is asked whether there is an object. */
int main(void) {
    struct box *box = malloc(sizeof(struct box));
    if (box == NULL) return 1;
    int count = getchar();
    int error = fill(box, count);
    if (box->data == NULL) return error;
    printf("%d\n", box->data[0]);
    return 0;
}
