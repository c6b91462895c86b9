// A new object in each turn of a loop, and none is freed.
// inputs: "" "hello" "x\ny"
#include <stdio.h>
#include <stdlib.h>

int main(void) {
    int c = getchar();
    int sum = 0;
    while (c != EOF) {
        int *cell = malloc(sizeof(int));
        if (cell == NULL) return 1;
        *cell = c;
        sum += *cell;
        c = getchar();
    }
    printf("%d\n", sum);
    return 0;
}
