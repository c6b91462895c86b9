// Accounts with a history each; closing one frees its history alone, and an error path frees nothing.
// inputs: "" "5" "12"
#include <stdio.h>
#include <stdlib.h>

struct account { int balance; int *history; };
struct account *open_account(int balance) {
    struct account *a = malloc(sizeof(struct account));
    if (a == NULL) return NULL;
    a->balance = balance;
    a->history = malloc(8 * sizeof(int));
    if (a->history == NULL) {
        return NULL;
    }
    a->history[0] = balance;
    return a;
}
int main(void) {
    struct account *mine = open_account(100);
    struct account *yours;
    int amount;
    if (mine == NULL) return 1;
    yours = open_account(50);
    if (yours == NULL) {
        printf("no second account\n");
        return 2;
    }
    amount = getchar();
    if (amount == EOF) amount = 0;
    mine->balance -= amount;
    yours->balance += amount;
    mine->history[1] = mine->balance;
    yours->history[1] = yours->balance;
    printf("%d %d\n", mine->history[1], yours->history[1]);
    free(mine->history);
    free(yours->history);
    return 0;
}
