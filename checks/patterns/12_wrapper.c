// A function that makes an object for its callers, who forget it.
// inputs: "" "m"
#include <stdio.h>
#include <stdlib.h>

int *make_number(int value) {
    int *made = malloc(sizeof(int));
    if (made == NULL) return NULL;
    *made = value;
    return made;
}
int main(void) {
    int *one = make_number(1);
    int *two = make_number(2);
    int c = getchar();
    if (one == NULL || two == NULL) return 1;
    printf("%d\n", *one + *two + c);
    return 0;
}
