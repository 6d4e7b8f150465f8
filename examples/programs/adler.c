#include "report.h"

void adler(const char *text) {
  unsigned low = 1, high = 0;
  for (; *text; text++) {
    low = (low + (unsigned char)*text) % 65521;
    high = (high + low) % 65521;
  }
  report("Adler-32", high << 16 | low);
}
