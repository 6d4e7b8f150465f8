// libbz2 is built without its own streams, and calls this where it finds itself broken.

#include <stdio.h>
#include <stdlib.h>

void bz_internal_error(int number) {
  fprintf(stderr, "bzip2: error %d\n", number);
  abort();
}
