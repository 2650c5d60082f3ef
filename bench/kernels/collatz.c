/* The start below 100,000 with the most steps to 1. */
int main(void)
{
    int best = 0;
    int most = 0;
    int start;
    for (start = 1; start < 100000; start++) {
        long long n = start;
        int steps = 0;
        while (n != 1) {
            n = n % 2 ? 3 * n + 1 : n / 2;
            steps++;
        }
        if (steps > most) {
            most = steps;
            best = start;
        }
    }
    return best % 251;
}
