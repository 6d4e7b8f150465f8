// Counts the lines, words and bytes of its input. Its arguments choose among the three.

#include "io.h"

static int is_space(int c) { return c == ' ' || (c >= '\t' && c <= '\r'); }

int main(int count, char **arguments) {
  unsigned lines = 0, words = 0, bytes = 0;
  int was_space = 1;
  for (int c = get(); c >= 0; c = get()) {
    bytes++;
    lines += c == '\n';
    words += was_space && !is_space(c);
    was_space = is_space(c);
  }
  for (int n = 1; n < count; n++) {
    char kind = arguments[n][0] == '-' ? arguments[n][1] : 0;
    if (kind != 'l' && kind != 'w' && kind != 'c') {
      put("no such count: ");
      put(arguments[n]);
      put("\n");
      return 2;
    }
    put_number(kind == 'l' ? lines : kind == 'w' ? words : bytes);
    put(kind == 'l' ? " lines\n" : kind == 'w' ? " words\n" : " bytes\n");
  }
  return 0;
}
