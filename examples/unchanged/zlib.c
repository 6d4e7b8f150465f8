// Packs its input by zlib and unpacks it, with memory of its own for the library.

#include "sums.h"
#include <string.h>
#include <zlib.h>

static unsigned long wanted;

static void *take(void *unused, unsigned count, unsigned size) {
  wanted++;
  return calloc(count, size);
}

static void give(void *unused, void *at) { free(at); }

int main(void) {
  size_t length;
  unsigned char *bytes = input(&length), *packed = malloc(2 * MOST), *back = malloc(MOST);
  z_stream stream;
  memset(&stream, 0, sizeof stream);
  stream.zalloc = take;
  stream.zfree = give;
  if (deflateInit(&stream, 9) != Z_OK) return 1;
  stream.next_in = bytes;
  stream.avail_in = length;
  stream.next_out = packed;
  stream.avail_out = 2 * MOST;
  if (deflate(&stream, Z_FINISH) != Z_STREAM_END) return 1;
  tell("packed", packed, stream.total_out);
  uLongf unpacked = MOST;
  if (uncompress(back, &unpacked, packed, stream.total_out) != Z_OK) return 1;
  deflateEnd(&stream);
  tell("unpacked", back, unpacked);
  printf("zlib %s, %s, %d blocks, %s", zlibVersion(), zError(Z_DATA_ERROR), (int)wanted, memcmp(bytes, back, length) ? "other" : "the same");
  return 0;
}
