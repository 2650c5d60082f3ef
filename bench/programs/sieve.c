// How many primes there are below 2,000,000, by a sieve.

#define BELOW 2000000

static unsigned char crossed[BELOW];

__attribute__((export_name("main"))) int primes(void) {
    int count = 0;
    for (int n = 2; n < BELOW; n++) {
        if (crossed[n]) {
            continue;
        }
        count++;
        for (int m = 2 * n; m < BELOW; m += n) {
            crossed[m] = 1;
        }
    }
    return count;
}
