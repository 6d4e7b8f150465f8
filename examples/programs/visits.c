// A constructor and a destructor in C, of the program, around which are those of a library.

#include "io.h"

void enter(void);

__attribute__((constructor)) static void begin(void) { put("the program begins\n"); }

__attribute__((destructor)) static void end(void) { put("the program ends\n"); }

int main(int count, char **arguments) {
  for (int n = 1; n < count; n++) {
    enter();
    put(arguments[n]);
    put(" enters\n");
  }
  return count - 1;
}
