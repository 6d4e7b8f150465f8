// Calls through a table of functions.
#include "finish.h"

typedef unsigned (*step)(unsigned);
static unsigned add(unsigned x) { return x + 7; }
static unsigned turn(unsigned x) { return x << 5 | x >> 27; }
static unsigned mix(unsigned x) { return x ^ x >> 3; }
static unsigned times(unsigned x) { return x * 9; }
step steps[4] = {add, turn, mix, times};

void _start(void) {
  unsigned x = 1;
  for (unsigned i = 0; i < 3000000; i++) x = steps[x % 4](x);
  finish(x);
}
