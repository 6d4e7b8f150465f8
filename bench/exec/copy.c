// Copies and fills of blocks.
#include "finish.h"

enum { SIZE = 1 << 14 };
unsigned char from[SIZE], to[SIZE];

void _start(void) {
  for (unsigned i = 0; i < 200000; i++) {
    __builtin_memset(from, (int)i, 256);
    __builtin_memcpy(to + i % 1024, from, 1024);
    __builtin_memmove(to + 8, to, 4096);
  }
  finish(to[2000]);
}
