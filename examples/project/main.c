#include "io.h"
#include "numbers.h"

int main(void) {
  tell("to ten: ", 10);
  tell("to a hundred: ", 100);
  put_number(sums);
  put(" sums\n");
  return 0;
}
