/* A program that doesn't end by itself. */

int main(void)
{
    unsigned int n = 1;
    while (n != 0)
        n = n * 3;
    return 0;
}
