/* Capital letters are made in place. That is right for an array of one's own, and wrong for a string literal. */
#include <stdio.h>

char own[] = "an array";
char *literal = "a literal";

void shout(char *text)
{
    char *p;
    for (p = text; *p != 0; p++)
        if (*p >= 'a' && *p <= 'z')
            *p -= 'a' - 'A';
}

void put(char *text)
{
    while (*text != 0)
        putchar(*text++);
    putchar('\n');
}

int main(void)
{
    shout(own);
    put(own);
    shout(literal);
    put(literal);
    return 0;
}
