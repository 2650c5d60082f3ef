/* A calculator with a stack of numbers and one of signs. It looks whether there is room for a number, and not whether there is one
   to be taken. */
#include <stdio.h>
#include <stdlib.h>

enum { depth = 8 };

struct sign {
    char sign;
    int strength;
    int (*apply)(int, int);
};

int add(int a, int b)
{
    return a + b;
}

int subtract(int a, int b)
{
    return a - b;
}

int multiply(int a, int b)
{
    return a * b;
}

int divide(int a, int b)
{
    return a / b;
}

struct sign table[] = {{'+', 1, add}, {'-', 1, subtract}, {'*', 2, multiply}, {'/', 2, divide}, {'('}, {0}};

int numbers[depth];
int used;
struct sign *waiting[depth];
int signs;

/* taken where the input is empty */
char *text = "1+2*3; (9-4)*(2+6); 7/2; 5+; 6;";

int next(void)
{
    int c = getchar();
    if (c != EOF)
        text = "";
    else if (*text != 0)
        c = *text++;
    return c;
}

struct sign *find(int c)
{
    struct sign *sign = table;
    while (sign->sign != 0 && sign->sign != c)
        sign++;
    return sign;
}

void push(int n)
{
    if (used == depth)
        abort();
    numbers[used++] = n;
}

/* what binds at least so strongly is done */
void reduce(int strength)
{
    while (signs > 0 && waiting[signs - 1]->strength >= strength) {
        int b = numbers[--used];
        int a = numbers[--used];
        push(waiting[--signs]->apply(a, b));
    }
}

void wait_with(struct sign *sign)
{
    if (signs == depth)
        abort();
    waiting[signs++] = sign;
}

void put(int n)
{
    if (n < 0)
        putchar('-');
    if (n / 10 != 0)
        put(n < 0 ? -(n / 10) : n / 10);
    putchar('0' + (n < 0 ? -(n % 10) : n % 10));
}

int main(void)
{
    int c = next();
    while (c != EOF) {
        if (c >= '0' && c <= '9') {
            int n = 0;
            for (; c >= '0' && c <= '9'; c = next())
                n = n * 10 + (c - '0');
            push(n);
            continue;
        }
        switch (c) {
        case ' ':
        case '\n':
            break;
        case '(':
            wait_with(find(c));
            break;
        case ')':
            reduce(1);
            signs--;
            break;
        case ';':
            reduce(1);
            put(numbers[--used]);
            putchar(';');
            break;
        default:
            reduce(find(c)->strength);
            wait_with(find(c));
        }
        c = next();
    }
    return used;
}
