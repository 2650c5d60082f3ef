// The 30th number of Fibonacci, by a function that calls itself twice.

__attribute__((noinline)) static int fibonacci(int n) {
    return n < 2 ? n : fibonacci(n - 1) + fibonacci(n - 2);
}

__attribute__((export_name("main"))) int thirtieth(void) {
    return fibonacci(30);
}
