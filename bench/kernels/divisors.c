/* The greatest common divisors of many pairs, added up. */

unsigned int divisor(unsigned int a, unsigned int b)
{
    while (b != 0) {
        unsigned int rest = a % b;
        a = b;
        b = rest;
    }
    return a;
}

int main(void)
{
    unsigned int sum = 0;
    unsigned int a;
    for (a = 1; a <= 700; a++) {
        unsigned int b;
        for (b = 1; b <= 700; b++)
            sum += divisor(a, b);
    }
    return sum % 251;
}
