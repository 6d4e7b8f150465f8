// Sorting of 32-bit numbers by quicksort.
#include "finish.h"

enum { COUNT = 1 << 17 };
unsigned numbers[COUNT];

static void sort(unsigned *low, unsigned *high) {
  while (low < high) {
    unsigned pivot = low[(high - low) / 2], *i = low, *j = high;
    while (i <= j) {
      while (*i < pivot) i++;
      while (pivot < *j) j--;
      if (i <= j) {
        unsigned t = *i;
        *i++ = *j;
        *j-- = t;
      }
    }
    if (j - low < high - i) {
      sort(low, j);
      low = i;
    } else {
      sort(i, high);
      high = j;
    }
  }
}

void _start(void) {
  unsigned x = 1;
  for (unsigned i = 0; i < COUNT; i++) numbers[i] = x = x * 1664525u + 1013904223u;
  sort(numbers, numbers + COUNT - 1);
  finish(numbers[COUNT / 2]);
}
