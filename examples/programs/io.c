#include "io.h"

#ifdef __wasm__
struct vector {
  const void *at;
  unsigned length;
};

#define WASI(name) __attribute__((import_module("wasi_snapshot_preview1"), import_name(#name)))
WASI(fd_read) int fd_read(int fd, const struct vector *vectors, unsigned count, unsigned *taken);
WASI(fd_write) int fd_write(int fd, const struct vector *vectors, unsigned count, unsigned *put);

// How many of the bytes were put out: 0 where none can be.
static unsigned write_some(const char *at, unsigned length) {
  struct vector vector = {at, length};
  unsigned done;
  return fd_write(1, &vector, 1, &done) == 0 ? done : 0;
}

static unsigned read_in(char *at, unsigned length) {
  struct vector vector = {at, length};
  unsigned taken;
  return fd_read(0, &vector, 1, &taken) == 0 ? taken : 0;
}
#else
#include <unistd.h>

static unsigned write_some(const char *at, unsigned length) {
  long done = write(1, at, length);
  return done < 0 ? 0 : done;
}

static unsigned read_in(char *at, unsigned length) {
  long taken = read(0, at, length);
  return taken < 0 ? 0 : taken;
}
#endif

void put(const char *text) {
  unsigned length = 0, done = 1;
  while (text[length]) length++;
  // one call need not put all of it
  for (; length && done; text += done, length -= done) done = write_some(text, length);
}

static void put_digits(unsigned number, unsigned base, int fewest) {
  char digits[33];
  char *at = digits + sizeof digits - 1;
  *at = 0;
  for (; number || fewest > 0; fewest--, number /= base) *--at = "0123456789abcdef"[number % base];
  put(at);
}

void put_number(unsigned number) { put_digits(number, 10, 1); }

void put_hexadecimal(unsigned number) { put_digits(number, 16, 8); }

int get(void) {
  static char buffer[512];
  static unsigned held, next;
  if (next == held) {
    held = read_in(buffer, sizeof buffer);
    next = 0;
  }
  return next < held ? (unsigned char)buffer[next++] : -1;
}
