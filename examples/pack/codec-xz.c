#include "codec.h"
#include <lzma.h>

// What the library remembers of a block: all of it, and no more, for memory's sake.
enum { WINDOW = 1 << 18 };

size_t packed_bound(size_t length) { return lzma_stream_buffer_bound(length); }

size_t pack(unsigned char *to, size_t room, const unsigned char *from, size_t length) {
  size_t written = 0;
  lzma_options_lzma options;
  lzma_filter filters[] = {{LZMA_FILTER_LZMA2, &options}, {LZMA_VLI_UNKNOWN, NULL}};
  if (lzma_lzma_preset(&options, 6)) return 0;
  options.dict_size = WINDOW;
  return lzma_stream_buffer_encode(filters, LZMA_CHECK_CRC64, NULL, from, length, to, &written, room) == LZMA_OK ? written : 0;
}

size_t unpack(unsigned char *to, size_t room, const unsigned char *from, size_t length) {
  uint64_t most = 1 << 27;
  size_t taken = 0, written = 0;
  return lzma_stream_buffer_decode(&most, 0, NULL, from, &taken, length, to, &written, room) == LZMA_OK ? written : 0;
}
