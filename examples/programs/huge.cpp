// Wants an array of more bytes than there are addresses. There is none, so the program ends there, with the status of a trap.

extern "C" {
#include "io.h"
}

namespace {

volatile unsigned long few = 4, many = ~0ul / sizeof(int) + 2;

int *array(unsigned long length) {
  int *made = new int[length];
  made[0] = 1;
  put(length == few ? "a small array\n" : "a huge array\n");
  return made;
}

}

int main() {
  delete[] array(few);
  delete[] array(many);
  return 0;
}
