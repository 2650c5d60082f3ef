/* Structs are sorted, each assigned as a whole, by a comparison that is handed over as a function. */
#include <stdio.h>

struct person {
    char name[8];
    int age;
};

int is_younger(struct person *a, struct person *b)
{
    return a->age < b->age;
}

void sort(struct person *all, int count, int (*is_less)(struct person *, struct person *))
{
    int i;
    int k;
    for (i = 1; i < count; i++) {
        struct person one = all[i];
        for (k = i; k > 0 && is_less(&one, &all[k - 1]); k--)
            all[k] = all[k - 1];
        all[k] = one;
    }
}

int main(void)
{
    struct person all[4] = {{"Carol", 31}, {"Bob", 47}, {"Alice", 25}, {"Dave", 38}};
    int i;
    int k;
    sort(all, 4, is_younger);
    for (i = 0; i < 4; i++) {
        for (k = 0; all[i].name[k] != 0; k++)
            putchar(all[i].name[k]);
        putchar(i < 3 ? ' ' : '\n');
    }
    return all[3].age;
}
