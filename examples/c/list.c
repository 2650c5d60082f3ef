/* A list in memory that is asked for and given back: the squares of one to ten, added up. */
#include <stdlib.h>

struct node {
    int value;
    struct node *next;
};

struct node *in_front(struct node *list, int value)
{
    struct node *made = malloc(sizeof(struct node));
    if (made == 0)
        abort();
    made->value = value;
    made->next = list;
    return made;
}

int main(void)
{
    struct node *list = 0;
    int sum = 0;
    int i;
    for (i = 1; i <= 10; i++)
        list = in_front(list, i * i);
    while (list != 0) {
        struct node *next = list->next;
        sum += list->value;
        free(list);
        list = next;
    }
    return sum;
}
