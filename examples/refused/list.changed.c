#include <stdio.h>
#include <stdlib.h>

/* One object for all values, which a single variable names. It grows when it is full. */
int main(void) {
    int room = 16;
    int count = 0;
    int *values = malloc(room * sizeof(int));
    if (values == NULL) return 1;
    int c = getchar();
    while (c != EOF) {
        if (count == room) {
            int *more = malloc(2 * room * sizeof(int));
            if (more == NULL) return 1;
            for (int i = 0; i < count; i++) more[i] = values[i];
            values = more;
            room *= 2;
        }
        values[count] = c;
        count++;
        c = getchar();
    }
    for (int i = count - 1; i >= 0; i--) printf("%d\n", values[i]);
    return 0;
}
