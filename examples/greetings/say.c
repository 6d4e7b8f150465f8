// Puts texts to the output, and counts them.

struct vector {
  const char *at;
  unsigned length;
};

__attribute__((import_module("wasi_snapshot_preview1"), import_name("fd_write"))) int
fd_write(int fd, const struct vector *vectors, unsigned count, unsigned *written);

int said;

void say(const char *text) {
  struct vector vector = {text, 0};
  unsigned written;
  while (text[vector.length]) vector.length++;
  said++;
  fd_write(1, &vector, 1, &written);
}
