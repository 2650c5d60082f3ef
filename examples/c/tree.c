/* Letters are sorted by a tree. It is given back in the wrong order: a node is freed before its two branches are looked up in it. */
#include <stdio.h>
#include <stdlib.h>

struct tree {
    char letter;
    struct tree *left;
    struct tree *right;
};

struct tree *root;

/* the place where this letter is, or belongs */
struct tree **place_of(char letter)
{
    struct tree **place = &root;
    while (*place != 0 && (*place)->letter != letter)
        place = letter < (*place)->letter ? &(*place)->left : &(*place)->right;
    return place;
}

void add(char letter)
{
    struct tree **place = place_of(letter);
    if (*place != 0)
        return;
    *place = calloc(1, sizeof(struct tree));
    if (*place == 0)
        abort();
    (*place)->letter = letter;
}

void show(struct tree *tree)
{
    if (tree == 0)
        return;
    show(tree->left);
    putchar(tree->letter);
    show(tree->right);
}

void release(struct tree *tree)
{
    if (tree == 0)
        return;
    free(tree);
    release(tree->left);
    release(tree->right);
}

int main(void)
{
    char *letter;
    for (letter = "thequickbrownfox"; *letter != 0; letter++)
        add(*letter);
    show(root);
    putchar('\n');
    release(root);
    return 0;
}
