// Two pointers trade places before they are freed.
// inputs: "" "ba" "ab"
#include <stdio.h>
#include <stdlib.h>

int main(void) {
    int *low = malloc(sizeof(int));
    int *high = malloc(sizeof(int));
    int *keep;
    if (low == NULL || high == NULL) return 1;
    *low = getchar();
    *high = getchar();
    if (*low > *high) {
        keep = low;
        low = high;
        high = keep;
    }
    printf("%d %d\n", *low, *high);
    free(low);
    return 0;
}
