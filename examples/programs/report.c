#include "report.h"
#include "io.h"

int reported;

void report(const char *kind, unsigned sum) {
  put_number(++reported);
  put(" ");
  put(kind);
  put(" ");
  put_hexadecimal(sum);
  put("\n");
}
