#include <stdio.h>

/* A filter: its input with each word's first letter in capitals, and how many words there are. */

enum place { outside, inside };

int is_blank(int c)
{
    switch (c) {
    case ' ':
    case '\t':
    case '\n':
        return 1;
    default:
        return 0;
    }
}

int main(void)
{
    enum place at = outside;
    int count = 0;
    int c;
    while ((c = getchar()) != EOF) {
        if (is_blank(c)) {
            at = outside;
        } else if (at == outside) {
            at = inside;
            count++;
            if (c >= 'a' && c <= 'z')
                c = c - 'a' + 'A';
        }
        putchar(c);
    }
    return count;
}
