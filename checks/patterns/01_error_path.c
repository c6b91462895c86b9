// An early return forgets the first buffer.
// inputs: "" "a"
#include <stdio.h>
#include <stdlib.h>

int main(void) {
    int *line, *word;
    line = malloc(80 * sizeof(int));
    if (line == NULL) return 1;
    word = malloc(20 * sizeof(int));
    if (word == NULL) return 2;
    line[0] = getchar();
    word[0] = line[0] + 1;
    printf("%d %d\n", line[0], word[0]);
    free(word);
    free(line);
    return 0;
}
