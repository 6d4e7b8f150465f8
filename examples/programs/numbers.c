// Puts many numbers in one text, of more bytes than one call of WASI puts.

#include "io.h"

enum { MOST = 20000 };

int main(void) {
  static char text[6 * MOST + 1];
  char *end = text;
  for (int n = 1; n <= MOST; n++) {
    char *first = end;
    for (int rest = n; rest; rest /= 10) *end++ = '0' + rest % 10;
    for (char *left = first, *right = end - 1; left < right; left++, right--) {
      char digit = *left;
      *left = *right;
      *right = digit;
    }
    *end++ = '\n';
  }
  put(text);
  return 0;
}
