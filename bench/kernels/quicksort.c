/* Fifty thousand numbers of a generator, sorted by parts. */
void exchange(int *a, int *b)
{
    int kept = *a;
    *a = *b;
    *b = kept;
}

void sort(int *first, int *last)
{
    int *from = first;
    int *to = last;
    int middle = first[(last - first) / 2];
    while (from <= to) {
        while (*from < middle)
            from++;
        while (*to > middle)
            to--;
        if (from <= to) {
            exchange(from, to);
            from++;
            to--;
        }
    }
    if (first < to)
        sort(first, to);
    if (from < last)
        sort(from, last);
}

int main(void)
{
    int numbers[50000];
    unsigned int x = 2463534242u;
    unsigned int sum = 0;
    int i;
    for (i = 0; i < 50000; i++) {
        x ^= x << 13;
        x ^= x >> 17;
        x ^= x << 5;
        numbers[i] = (int) (x >> 1);
    }
    sort(numbers, numbers + 49999);
    for (i = 0; i < 50000; i++)
        sum = sum * 31u + (unsigned int) numbers[i];
    return (int) (sum % 251u);
}
