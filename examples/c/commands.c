/* A table of commands has no function for its last one: the call through the null pointer stops the program. */
#include <stdio.h>

struct command {
    char name;
    int (*run)(int, int);
};

int add(int a, int b)
{
    return a + b;
}

int multiply(int a, int b)
{
    return a * b;
}

int main(void)
{
    struct command table[3] = {{'+', add}, {'*', multiply}, {'/', NULL}};
    int i;
    for (i = 0; i < 3; i++) {
        putchar(table[i].name);
        putchar('0' + table[i].run(4, 2));
        putchar(' ');
    }
    return 0;
}
