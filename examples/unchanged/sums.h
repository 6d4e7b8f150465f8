// What the three programs have in common: all of the input, and a sum by which bytes are told.

#include <stdio.h>
#include <stdlib.h>

enum { MOST = 1 << 20 };

static unsigned sum_of(const unsigned char *at, size_t length) {
  unsigned sum = 2166136261u;
  for (size_t n = 0; n < length; n++) sum = (sum ^ at[n]) * 16777619u;
  return sum;
}

static unsigned char *input(size_t *length) {
  unsigned char *bytes = malloc(MOST);
  if (!bytes) exit(2);
  *length = fread(bytes, 1, MOST, stdin);
  return bytes;
}

static void tell(const char *what, const unsigned char *at, size_t length) {
  printf("%s: %lu bytes, sum %08x\n", what, (unsigned long)length, sum_of(at, length));
}
