#include <stdio.h>

/* The primes below 50, and how many they are. */

int is_prime(int n)
{
    int d;
    for (d = 2; d * d <= n; d++)
        if (n % d == 0)
            return 0;
    return n > 1;
}

void show(int n)
{
    if (n > 9)
        show(n / 10);
    putchar('0' + n % 10);
}

int main(void)
{
    int n;
    int count = 0;
    for (n = 0; n < 50; n++) {
        if (!is_prime(n))
            continue;
        if (count++)
            putchar(' ');
        show(n);
    }
    putchar('\n');
    return count;
}
