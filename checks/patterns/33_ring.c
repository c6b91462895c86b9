// Two objects that point to each other.
// inputs: ""
#include <stdio.h>
#include <stdlib.h>

struct peer { int id; struct peer *other; };
int main(void) {
    struct peer *left = malloc(sizeof(struct peer));
    struct peer *right = malloc(sizeof(struct peer));
    if (left == NULL || right == NULL) return 1;
    left->id = 1;
    right->id = 2;
    left->other = right;
    right->other = left;
    printf("%d %d\n", left->other->id, right->other->id);
    free(left->other);
    free(right);
    return 0;
}
