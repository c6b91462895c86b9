#include <stdio.h>
#include <stdlib.h>

struct box { int *data; };

/* Answers 0 with an object in the box, or an error with a box that has none. */
int fill(struct box *box, int count) {
    if (count > 100) return 2;
    box->data = malloc(count * sizeof(int));
    if (box->data == NULL) return 1;
    box->data[0] = count;
    return 0;
}

/* Whether the box has an object is known by the number alone, which no analysis follows here. */
int main(void) {
    struct box *box = malloc(sizeof(struct box));
    if (box == NULL) return 1;
    int count = getchar();
    int error = fill(box, count);
    if (error != 0) return error;
    printf("%d\n", box->data[0]);
    return 0;
}
