// The heap of a set: from __heap_base on, and behind __heap_end what memory.grow adds.
// wdyl defines both names.

#include "heap.h"

extern char __heap_base[], __heap_end[];

void *take(unsigned long size) {
  static char *next, *end;
  if (!next) next = __heap_base, end = __heap_end;
  if (size > -16ul) return 0;
  size = size ? (size + 15) & -16ul : 16;
  unsigned long left = end - next;
  if (size > left) {
    unsigned long pages = (size - left - 1) / 65536 + 1;
    if (__builtin_wasm_memory_grow(0, pages) == -1ul) return 0;
    end += pages * 65536;
  }
  void *taken = next;
  next += size;
  return taken;
}
