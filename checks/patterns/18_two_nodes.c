// A list of two nodes, built by hand.
// inputs: ""
#include <stdio.h>
#include <stdlib.h>

struct node { int value; struct node *next; };
int main(void) {
    struct node *first = malloc(sizeof(struct node));
    struct node *second = malloc(sizeof(struct node));
    if (first == NULL) return 1;
    if (second == NULL) return 2;
    first->value = 1;
    first->next = second;
    second->value = 2;
    second->next = NULL;
    printf("%d\n", first->value + first->next->value);
    free(first);
    printf("%d\n", second->value);
    return 0;
}
