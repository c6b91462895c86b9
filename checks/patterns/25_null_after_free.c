// The idiom that sets a pointer to NULL behind its free, and one path that forgets both.
// inputs: "" "r" "s"
#include <stdio.h>
#include <stdlib.h>

int main(void) {
    int c = getchar();
    int *state = malloc(sizeof(int));
    if (state == NULL) return 1;
    *state = c;
    if (c == 'r') {
        free(state);
        state = NULL;
    }
    if (state != NULL) printf("%d\n", *state);
    return 0;
}
