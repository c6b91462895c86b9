// Two layers of functions around malloc.
// inputs: ""
#include <stdio.h>
#include <stdlib.h>

int *room_for(int count) {
    if (count < 1) return NULL;
    return malloc(count * sizeof(int));
}
int *zeros(int many) {
    int *made = room_for(many);
    if (made == NULL) return NULL;
    for (int i = 0; i < many; i++) made[i] = 0;
    return made;
}
int main(void) {
    int *row = zeros(5);
    int *none = zeros(0);
    if (row == NULL) return 1;
    row[2] = 7;
    printf("%d %d\n", row[2], none == NULL);
    return 0;
}
