/* Words are counted in a hash table on the heap. The hash is a signed number, as char is: of a word whose letters aren't all ASCII it
   may be negative, and then there is no such bucket. */
#include <stdio.h>
#include <stdlib.h>

enum { buckets = 16 };

struct entry {
    char *word;
    int count;
    struct entry *next;
};

struct entry *table[buckets];
char *words[] = {"to", "be", "or", "not", "to", "be", "", "\303\234ber", "alles", ""};

int hash(char *word)
{
    int h = 0;
    while (*word != 0)
        h = h * 31 + *word++;
    return h;
}

int is_same(char *a, char *b)
{
    while (*a != 0 && *a == *b) {
        a++;
        b++;
    }
    return *a == *b;
}

int count(char *word)
{
    struct entry **bucket = &table[hash(word) % buckets];
    struct entry *entry;
    for (entry = *bucket; entry != 0; entry = entry->next)
        if (is_same(entry->word, word))
            return ++entry->count;
    entry = malloc(sizeof(struct entry));
    if (entry == 0)
        abort();
    entry->word = word;
    entry->count = 1;
    entry->next = *bucket;
    *bucket = entry;
    return 1;
}

int main(void)
{
    int i;
    for (i = 0; i < 10; i++)
        putchar('0' + count(words[i]));
    return 0;
}
