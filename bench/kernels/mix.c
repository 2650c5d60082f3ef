/* Three million rounds of a generator of 32 bits, mixed. */
unsigned int next(unsigned int x)
{
    x ^= x << 13;
    x ^= x >> 17;
    return x ^ x << 5;
}

int main(void)
{
    unsigned int x = 2463534242u;
    unsigned int sum = 0;
    int i;
    for (i = 0; i < 3000000; i++) {
        x = next(x);
        switch (x & 3u) {
        case 0:
            sum += x;
            break;
        case 1:
            sum ^= x;
            break;
        default:
            sum = sum * 31u + 1u;
        }
    }
    return (int) (sum % 251u);
}
