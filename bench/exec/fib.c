// Recursive Fibonacci.
#include "finish.h"

static unsigned fib(unsigned n) { return n < 2 ? n : fib(n - 1) + fib(n - 2); }

void _start(void) { finish(fib(30)); }
