#include <stdio.h>
#include <stdlib.h>

/* Squares and their sums. Where the second request fails, the first buffer is lost; at the end both are. */
int main(void) {
    int *squares = malloc(8 * sizeof(int));
    if (squares == NULL) return 1;
    int *sums = malloc(8 * sizeof(int));
    if (sums == NULL)  {  free(squares); return 2; } 
    int sum = 0;
    for (int i = 0; i < 8; i++) {
        squares[i] = i * i;
        sum += squares[i];
        sums[i] = sum;
    }
    printf("%d %d\n", squares[7], sums[7]);
     free(squares);  free(sums); return 0;
}
