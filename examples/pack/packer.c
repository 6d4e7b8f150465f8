// Packs its input, and unpacks what it packed. How is the work of codecs, libraries that are opened by the name that is wanted:
//
//     packer xz <FILE >ARCHIVE       packs by the codec of codec-xz.so
//     packer <ARCHIVE >FILE          unpacks, by the codec that the archive names
//     packer list xz zlib <FILE      tells how many bytes each codec makes of it
//
// An archive is a line `packed by NAME`, blocks, and two zeros. A block begins with its length and that of what it is packed to, of four
// bytes each, the lowest first.

#include <dlfcn.h>
#include <stdint.h>
#include <stdio.h>
#include <stdlib.h>
#include <string.h>

enum { BLOCK = 1 << 18 };

struct codec {
  size_t (*packed_bound)(size_t);
  size_t (*pack)(unsigned char *, size_t, const unsigned char *, size_t);
  size_t (*unpack)(unsigned char *, size_t, const unsigned char *, size_t);
};

static void fail(const char *text, const char *name) {
  fprintf(stderr, "packer: %s%s\n", text, name);
  exit(1);
}

static void *grab(size_t size) {
  void *taken = malloc(size);
  if (!taken) fail("no memory", "");
  return taken;
}

static struct codec open_codec(const char *name) {
  char file[64];
  struct codec codec;
  snprintf(file, sizeof file, "codec-%s.so", name);
  void *library = dlopen(file, RTLD_NOW);
  if (!library) fail("there is no codec ", name);
  *(void **)&codec.packed_bound = dlsym(library, "packed_bound");
  *(void **)&codec.pack = dlsym(library, "pack");
  *(void **)&codec.unpack = dlsym(library, "unpack");
  if (!codec.packed_bound || !codec.pack || !codec.unpack) fail("this is no codec: ", name);
  return codec;
}

static void put_length(size_t length) {
  for (int n = 0; n < 4; n++) putchar(length >> 8 * n & 255);
}

static size_t get_length(void) {
  uint32_t length = 0;
  for (int n = 0; n < 4; n++) {
    int byte = getchar();
    if (byte == EOF) fail("the archive is cut", "");
    length |= (uint32_t)byte << 8 * n;
  }
  return length;
}

static void pack_all(const char *name) {
  struct codec codec = open_codec(name);
  size_t length, room = codec.packed_bound(BLOCK);
  unsigned char *block = grab(BLOCK), *packed = grab(room);
  printf("packed by %s\n", name);
  while ((length = fread(block, 1, BLOCK, stdin))) {
    size_t written = codec.pack(packed, room, block, length);
    if (!written) fail("can't pack by ", name);
    put_length(length);
    put_length(written);
    fwrite(packed, 1, written, stdout);
  }
  put_length(0);
  put_length(0);
  free(block);
  free(packed);
}

static void unpack_all(void) {
  char name[32];
  if (scanf("packed by %31[a-z0-9]", name) != 1 || getchar() != '\n') fail("this is no archive", "");
  struct codec codec = open_codec(name);
  size_t length, room = codec.packed_bound(BLOCK);
  unsigned char *block = grab(BLOCK), *packed = grab(room);
  while ((length = get_length())) {
    size_t taken = get_length();
    if (length > BLOCK || taken > room || fread(packed, 1, taken, stdin) != taken) fail("the archive is cut", "");
    if (codec.unpack(block, length, packed, taken) != length) fail("the archive is broken", "");
    fwrite(block, 1, length, stdout);
  }
  free(block);
  free(packed);
}

static void list(int count, char **names) {
  size_t length = 0, more, *totals = calloc(count, sizeof *totals);
  unsigned char *block = grab(BLOCK);
  while ((more = fread(block, 1, BLOCK, stdin))) {
    length += more;
    for (int n = 0; n < count; n++) {
      struct codec codec = open_codec(names[n]);
      size_t room = codec.packed_bound(BLOCK);
      unsigned char *packed = grab(room);
      totals[n] += codec.pack(packed, room, block, more);
      free(packed);
    }
  }
  for (int n = 0; n < count; n++) printf("%-6s %zu of %zu bytes\n", names[n], totals[n], length);
  free(totals);
  free(block);
}

int main(int count, char **words) {
  static char held[1 << 16];
  setvbuf(stdout, held, _IOFBF, sizeof held);
  if (count == 1) unpack_all();
  else if (!strcmp(words[1], "list")) list(count - 2, words + 2);
  else pack_all(words[1]);
  if (fflush(stdout)) fail("can't write", "");
  return 0;
}
