/* How many ways there are to place ten queens, by sets of bits. */
int place(int all, int columns, int left, int right)
{
    int ways = 0;
    int open = all & ~(columns | left | right);
    if (columns == all)
        return 1;
    while (open) {
        int one = open & -open;
        open = open ^ one;
        ways += place(all, columns | one, (left | one) << 1 & all, (right | one) >> 1);
    }
    return ways;
}

int main(void) { return place(1023, 0, 0, 0) % 251; }
