#include "codec.h"
#include <lz4.h>
#include <lz4hc.h>

size_t packed_bound(size_t length) { return LZ4_compressBound(length); }

size_t pack(unsigned char *to, size_t room, const unsigned char *from, size_t length) {
  return LZ4_compress_HC((const char *)from, (char *)to, length, room, LZ4HC_CLEVEL_DEFAULT);
}

size_t unpack(unsigned char *to, size_t room, const unsigned char *from, size_t length) {
  int written = LZ4_decompress_safe((const char *)from, (char *)to, length, room);
  return written > 0 ? written : 0;
}
