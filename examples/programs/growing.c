// Takes 90 blocks of a million bytes, and puts a line and takes a byte of the input behind each.

#include "heap.h"
#include "io.h"

#ifndef __wasm__
#include <stdlib.h>
void *take(unsigned long size) { return malloc(size); }
#endif

int main(void) {
  for (unsigned n = 1; n <= 90; n++) {
    char *block = take(1000000);
    if (!block) return 1;
    for (unsigned at = 0; at < 1000000; at += 1000) block[at] = n;
    put_number(block[999000]);
    put(get() < 0 ? ", behind the input\n" : "\n");
  }
  return 0;
}
