#include <stdlib.h>

/* No free fits between the last use of the object and the return: the return is the use. */
int main(void) {
    int *status = malloc(sizeof(int));
    if (status == NULL) return 1;
    *status = 0;
    return *status;
}
