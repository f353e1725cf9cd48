// Calls and little else: Fibonacci numbers by their definition, so that each call pushes, calls twice and pops.

unsigned long __attribute__((noinline)) fibonacci(unsigned long n);

int main(void) {
    return (int)fibonacci(60) & 127;
}

unsigned long __attribute__((noinline, optimize("no-optimize-sibling-calls"))) fibonacci(unsigned long n) {
    if (n < 2) {
        return n;
    }
    return fibonacci(n - 1) + fibonacci(n - 2);
}
