// A buffer that grows: the old one is lost each time.
// inputs: "" "abcdefghijklmnop" "abc"
#include <stdio.h>
#include <stdlib.h>

int main(void) {
    int room = 2, used = 0, c, i;
    int *text = malloc(room * sizeof(int));
    if (text == NULL) return 1;
    c = getchar();
    while (c != EOF) {
        if (used == room) {
            int *bigger = malloc(2 * room * sizeof(int));
            if (bigger == NULL) return 2;
            for (i = 0; i < used; i++) bigger[i] = text[i];
            text = bigger;
            room *= 2;
        }
        text[used] = c;
        used++;
        c = getchar();
    }
    for (i = used - 1; i >= 0; i--) putchar(text[i]);
    putchar('\n');
    return 0;
}
