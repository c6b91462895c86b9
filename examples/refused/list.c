#include <stdio.h>
#include <stdlib.h>

struct node { int value; struct node *next; };

/* A list of any length. Nothing but the chain of the objects themselves leads to them, and no free names them all. */
int main(void) {
    struct node *list = NULL;
    int c = getchar();
    while (c != EOF) {
        struct node *node = malloc(sizeof(struct node));
        if (node == NULL) return 1;
        node->value = c;
        node->next = list;
        list = node;
        c = getchar();
    }
    struct node *at = list;
    while (at != NULL) {
        printf("%d\n", at->value);
        at = at->next;
    }
    return 0;
}
