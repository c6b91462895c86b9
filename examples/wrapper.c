#include <stdio.h>
#include <stdlib.h>

/* A function around malloc, whose caller forgets what it got. */
int *make_number(int value) {
    int *made = malloc(sizeof(int));
    if (made == NULL) return NULL;
    *made = value;
    return made;
}

int main(void) {
    int *one = make_number(1);
    int *two = make_number(2);
    if (one == NULL || two == NULL) return 1;
    printf("%d\n", *one + *two);
    return 0;
}
