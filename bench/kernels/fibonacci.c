/* A Fibonacci number by recursion. */
int fibonacci(int n) { return n < 2 ? n : fibonacci(n - 1) + fibonacci(n - 2); }

int main(void) { return fibonacci(30) % 251; }
