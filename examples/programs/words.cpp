// Puts its arguments, the last first: main of C++ with arguments. An object tells at the end how many there were.

extern "C" {
#include "io.h"
}

namespace {

struct Counter {
  unsigned words = 0;
  ~Counter() {
    put_number(words);
    put(" words\n");
  }
};

Counter counter;

}

int main(int count, char **arguments) {
  for (int n = count - 1; n > 0; n--) {
    put(arguments[n]);
    put("\n");
    counter.words++;
  }
  return count - 1;
}
