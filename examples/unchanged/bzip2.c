// Packs its input by libbz2 and unpacks it. The library, built without text out, calls bz_internal_error of the program.

#include "sums.h"
#include <bzlib.h>
#include <string.h>

void bz_internal_error(int code) {
  fprintf(stderr, "libbz2: %d\n", code);
  exit(2);
}

int main(void) {
  size_t length;
  unsigned char *bytes = input(&length);
  char *packed = malloc(2 * MOST), *back = malloc(MOST);
  unsigned size = 2 * MOST, unpacked = MOST;
  if (BZ2_bzBuffToBuffCompress(packed, &size, (char *)bytes, length, 1, 0, 0) != BZ_OK) return 1;
  tell("packed", (unsigned char *)packed, size);
  if (BZ2_bzBuffToBuffDecompress(back, &unpacked, packed, size, 0, 0) != BZ_OK) return 1;
  tell("unpacked", (unsigned char *)back, unpacked);
  printf("libbz2 %s, %s\n", BZ2_bzlibVersion(), memcmp(bytes, back, length) ? "other" : "the same");
  return 0;
}
