// Three buffers, and each error path forgets all that came before.
// inputs: ""
#include <stdio.h>
#include <stdlib.h>

int main(void) {
    int *red = malloc(4 * sizeof(int));
    if (red == NULL) return 1;
    int *green = malloc(4 * sizeof(int));
    if (green == NULL) return 1;
    int *blue = malloc(4 * sizeof(int));
    if (blue == NULL) return 1;
    for (int i = 0; i < 4; i++) {
        red[i] = i;
        green[i] = 2 * i;
        blue[i] = red[i] + green[i];
    }
    printf("%d\n", blue[3]);
    return 0;
}
