/* A tokenizer that finds the reader of a token in a table, by the class of its first byte. The class of strings came later, and has
   no reader. */
#include <stdio.h>

enum class { blanks, digits, letters, signs, quotes, classes };

char *text = "sum += a1 * 30; name = \"none\"";

int is_digit(int c)
{
    return c >= '0' && c <= '9';
}

int is_letter(int c)
{
    return (c >= 'a' && c <= 'z') || c == '_';
}

enum class class_of(int c)
{
    if (c == ' ' || c == '\n')
        return blanks;
    if (is_digit(c))
        return digits;
    if (is_letter(c))
        return letters;
    return c == '"' ? quotes : signs;
}

/* the next byte is a part of the token */
void keep(void)
{
    putchar(*text++);
}

int skip(void)
{
    text++;
    return 0;
}

int number(void)
{
    while (is_digit(*text))
        keep();
    return 1;
}

int name(void)
{
    while (is_letter(*text) || is_digit(*text))
        keep();
    return 1;
}

int sign(void)
{
    keep();
    if (*text == '=')
        keep();
    return 1;
}

int (*readers[classes])(void) = {skip, number, name, sign};

int main(void)
{
    int count = 0;
    while (*text != 0)
        if (readers[class_of(*text)]()) {
            putchar(',');
            count++;
        }
    return count;
}
