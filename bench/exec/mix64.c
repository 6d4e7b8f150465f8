// Mixing of 64-bit numbers.
#include "finish.h"

void _start(void) {
  unsigned long long x = 1;
  for (unsigned i = 0; i < 4000000; i++) {
    x ^= x >> 33;
    x *= 0xff51afd7ed558ccdull;
    x ^= x >> 33;
    x *= 0xc4ceb9fe1a85ec53ull;
    x ^= x >> 33;
  }
  finish((unsigned)(x ^ x >> 32));
}
