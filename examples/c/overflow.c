#include <stdio.h>

/* The least int has no quotient by -1: the program is stopped there, and what it put before stays. */

int quotient(int a, int b)
{
    return a / b;
}

int main(void)
{
    putchar('0' + quotient(84, 12));
    putchar('\n');
    return quotient(-2147483647 - 1, -1);
}
