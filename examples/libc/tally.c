// A library that shares the C library with its program: memory that it takes the program frees, and what it puts out is held in the same
// place.

#include "tally.h"
#include <errno.h>
#include <stdio.h>
#include <stdlib.h>
#include <string.h>

static int calls;

static __attribute__((constructor)) void begin(void) { printf("library begins, "); }

static __attribute__((destructor)) void end(void) { printf("library ends after %d calls\n", calls); }

static void bye(void) { puts("bye from the library"); }

char *tally(const int *numbers, int count) {
  char *text = malloc(12 * count + 1), *at = text;
  for (int n = 0; n < count; n++) at += sprintf(at, "%d ", numbers[n]);
  if (!calls++) atexit(bye);
  return text;
}

void complain(const char *what) {
  printf("%s: %s\n", what, errno == ERANGE ? "out of range" : strerror(errno));
  calls++;
}
