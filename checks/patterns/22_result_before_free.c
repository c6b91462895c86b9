// The result is copied, and then the object is forgotten.
// inputs: "" "3" "9"
#include <stdio.h>
#include <stdlib.h>

int digit(void) {
    int *cell = malloc(sizeof(int));
    int value;
    if (cell == NULL) return -1;
    *cell = getchar();
    value = *cell - '0';
    return value;
}
int main(void) {
    int d = digit();
    if (d < 0 || d > 9) return 1;
    printf("%d\n", d);
    return 0;
}
