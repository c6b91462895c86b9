// Each arm of a chain makes an object of its own.
// inputs: "" "a" "b" "c"
#include <stdio.h>
#include <stdlib.h>

int main(void) {
    int c = getchar();
    int *arm = NULL;
    if (c == 'a') arm = malloc(sizeof(int));
    else if (c == 'b') arm = malloc(2 * sizeof(int));
    else printf("none\n");
    if (arm == NULL) return 1;
    arm[0] = c;
    printf("%d\n", arm[0]);
    return 0;
}
