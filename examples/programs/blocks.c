// Takes blocks of the heap, writes into them, and sees that each keeps what is its own. There are none of impossible sizes.

#include "heap.h"
#include "io.h"

#ifndef __wasm__
#include <stdlib.h>
void *take(unsigned long size) { return malloc(size); }
#endif

enum { MOST = 16 };
static unsigned char *blocks[MOST];
static unsigned long sizes[MOST];
static int taken;

static unsigned char *take_block(unsigned long size) {
  unsigned char *block = take(size);
  if (!block || (unsigned long)block % 16) return 0;
  for (int n = 0; n < taken; n++)
    if (blocks[n] == block) return 0;
  for (unsigned long at = 0; at < size; at++) block[at] = taken;
  sizes[taken] = size;
  blocks[taken++] = block;
  return block;
}

static int is_kept(int n) {
  for (unsigned long at = 0; at < sizes[n]; at++)
    if (blocks[n][at] != n) return 0;
  return 1;
}

int main(void) {
  unsigned char *first = take_block(1);
  // up to the end of the page: where the heap is there, it ends at the end of the memory
  take_block(-(unsigned long)(first + 16) % 65536);
  take_block(0);
  take_block(0);
  take_block(65536);
  take_block(17);
  take_block(200000);
  const unsigned long impossible[] = {-1ul, -8ul, -15ul, -16ul, -17ul, -65536ul, -65552ul, -1ul / 2 + 1};
  unsigned none = 0, kept = 0;
  for (int n = 0; n < 8; n++) none += !take(impossible[n]);
  take_block(1);
  for (int n = 0; n < taken; n++) kept += is_kept(n);
  put_number(kept);
  put(" blocks keep what is theirs\n");
  put_number(none);
  put(" of 8 sizes are impossible\n");
  return 0;
}
