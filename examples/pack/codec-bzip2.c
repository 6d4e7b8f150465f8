#include "codec.h"
#include <bzlib.h>

size_t packed_bound(size_t length) { return length + length / 100 + 600; }

size_t pack(unsigned char *to, size_t room, const unsigned char *from, size_t length) {
  unsigned written = room;
  return BZ2_bzBuffToBuffCompress((char *)to, &written, (char *)from, length, 9, 0, 0) == BZ_OK ? written : 0;
}

size_t unpack(unsigned char *to, size_t room, const unsigned char *from, size_t length) {
  unsigned written = room;
  return BZ2_bzBuffToBuffDecompress((char *)to, &written, (char *)from, length, 0, 0) == BZ_OK ? written : 0;
}
