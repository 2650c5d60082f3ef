/* The product of two matrices of 96 times 96 numbers. */
int main(void)
{
    int a[96][96];
    int b[96][96];
    int c[96][96];
    unsigned int sum = 0;
    int i;
    int j;
    int k;
    for (i = 0; i < 96; i++)
        for (j = 0; j < 96; j++) {
            a[i][j] = i * 3 - j;
            b[i][j] = i + j * 5;
        }
    for (i = 0; i < 96; i++)
        for (j = 0; j < 96; j++) {
            int cell = 0;
            for (k = 0; k < 96; k++)
                cell += a[i][k] * b[k][j];
            c[i][j] = cell;
        }
    for (i = 0; i < 96; i++)
        for (j = 0; j < 96; j++)
            sum = sum * 31u + (unsigned int) c[i][j];
    return (int) (sum % 251u);
}
