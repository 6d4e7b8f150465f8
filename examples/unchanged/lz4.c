// Packs its input by lz4, fast and well, and unpacks both.

#include "lz4.h"
#include "lz4hc.h"
#include "sums.h"
#include <string.h>

static void unpack(const unsigned char *bytes, size_t length, const char *packed, int size) {
  char *back = malloc(MOST);
  int unpacked = LZ4_decompress_safe(packed, back, size, MOST);
  tell("unpacked", (unsigned char *)back, unpacked);
  if ((size_t)unpacked != length || memcmp(bytes, back, length)) exit(1);
  free(back);
}

int main(void) {
  size_t length;
  unsigned char *bytes = input(&length);
  char *packed = malloc(2 * MOST);
  int size = LZ4_compress_default((char *)bytes, packed, length, 2 * MOST);
  tell("packed fast", (unsigned char *)packed, size);
  unpack(bytes, length, packed, size);
  size = LZ4_compress_HC((char *)bytes, packed, length, 2 * MOST, 9);
  tell("packed well", (unsigned char *)packed, size);
  unpack(bytes, length, packed, size);
  printf("lz4 %s", LZ4_versionString());
  return 3;
}
