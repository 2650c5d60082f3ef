/* A pointer that is kept too long: what it leads to is freed, and its room is given to another. */
#include <stdio.h>
#include <stdlib.h>

int main(void)
{
    int *secret = malloc(sizeof(int));
    int *other;
    *secret = 42;
    free(secret);
    other = malloc(sizeof(int));
    *other = 7;
    putchar('0' + *other);
    putchar('\n');
    return *secret;
}
