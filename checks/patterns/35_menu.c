// A program that reads commands: n makes a new object, p prints it, d drops it, and q ends.
// inputs: "" "npnpq" "nddq" "pnq" "nnnp"
#include <stdio.h>
#include <stdlib.h>

int main(void) {
    int c = getchar(), next = 1;
    int *now = NULL;
    while (c != EOF && c != 'q') {
        if (c == 'n') {
            now = malloc(sizeof(int));
            if (now != NULL) *now = next;
            next++;
        } else if (c == 'p') {
            if (now != NULL) printf("%d\n", *now);
        } else if (c == 'd') {
            free(now);
            now = NULL;
        }
        c = getchar();
    }
    return 0;
}
