#include "codec.h"
#include <zlib.h>

size_t packed_bound(size_t length) { return compressBound(length); }

size_t pack(unsigned char *to, size_t room, const unsigned char *from, size_t length) {
  uLongf written = room;
  return compress2(to, &written, from, length, 9) == Z_OK ? written : 0;
}

size_t unpack(unsigned char *to, size_t room, const unsigned char *from, size_t length) {
  uLongf written = room;
  return uncompress(to, &written, from, length) == Z_OK ? written : 0;
}
