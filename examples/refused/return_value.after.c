#include <stdlib.h>

/* The value is copied first, so a free fits between the copy and the return. */
int main(void) {
    int *status = malloc(sizeof(int));
    if (status == NULL) return 1;
    *status = 0;
    int result = *status;
     free(status); return result;
}
