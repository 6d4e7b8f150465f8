// Puts the words of its input in order, by a library in Rust. Its arguments are the numbers of orders.

#include <stdio.h>
#include <stdlib.h>

size_t count_words(const unsigned char *text, size_t length, size_t order, void (*put)(const unsigned char *, size_t));

static void put(const unsigned char *line, size_t length) {
  fwrite(line, 1, length, stdout);
  // so that all is out where the next call traps
  fflush(stdout);
}

int main(int count, char **words) {
  static unsigned char text[4096];
  size_t length = fread(text, 1, sizeof text, stdin);
  for (int n = 1; n < count; n++) printf("%zu words\n", count_words(text, length, atoi(words[n]), put));
  return 0;
}
