/* Two hundred lists of a thousand nodes, each built, summed and freed. */
struct node {
    int value;
    struct node *next;
};

int main(void)
{
    unsigned int sum = 0;
    int round;
    int i;
    for (round = 0; round < 200; round++) {
        struct node *head = 0;
        for (i = 0; i < 1000; i++) {
            struct node *made = malloc(sizeof(struct node));
            if (made == 0)
                abort();
            made->value = i * round;
            made->next = head;
            head = made;
        }
        while (head != 0) {
            struct node *next = head->next;
            sum = sum * 31u + (unsigned int) head->value;
            free(head);
            head = next;
        }
    }
    return (int) (sum % 251u);
}
