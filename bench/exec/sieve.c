// The sieve of Eratosthenes.
#include "finish.h"

enum { MOST = 1 << 21 };
unsigned char composite[MOST];

void _start(void) {
  unsigned count = 0;
  for (unsigned i = 2; i < MOST; i++) {
    if (composite[i]) continue;
    count++;
    for (unsigned j = 2 * i; j < MOST; j += i) composite[j] = 1;
  }
  finish(count);
}
