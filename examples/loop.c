#include <stdio.h>
#include <stdlib.h>

/* A new object in each turn of the loop. It is freed where the loop is left, and in no other turn. */
int main(void) {
    int sum = 0;
    int c = getchar();
    while (c != EOF) {
        int *seen = malloc(sizeof(int));
        if (seen == NULL) return 1;
        *seen = c;
        sum += c;
        c = getchar();
        if (*seen == '.') {
            free(seen);
            break;
        }
    }
    printf("%d\n", sum);
    return 0;
}
