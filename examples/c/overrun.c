/* A name too long for its array: the write that would make its owner an administrator stops the program. */
#include <stdio.h>

struct account {
    char name[8];
    char is_admin;
};

void copy(char *to, char *from)
{
    while ((*to++ = *from++) != 0)
        ;
}

int main(void)
{
    char given[10] = "mallory!!";
    struct account account;
    int i;
    account.is_admin = 0;
    for (i = 0; given[i] != 0; i++)
        putchar(given[i]);
    putchar('\n');
    copy(account.name, given);
    return account.is_admin;
}
