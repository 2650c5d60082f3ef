/* The primes below 400,000, by a sieve. */
int main(void)
{
    char composite[400000];
    int found = 0;
    int i;
    int j;
    for (i = 0; i < 400000; i++)
        composite[i] = 0;
    for (i = 2; i < 400000; i++)
        if (!composite[i]) {
            found++;
            for (j = i; j < 400000; j += i)
                composite[j] = 1;
        }
    return found % 251;
}
