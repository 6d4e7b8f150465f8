#include "io.h"
#include "numbers.h"

void tell(const char *what, unsigned number) {
  put(what);
  put_number(sum_to(number));
  put("\n");
}
