// A library with something to do before the program and behind it.

#include "io.h"

static unsigned visitors;

void enter(void) { visitors++; }

__attribute__((constructor)) static void unlock(void) { put("the door is unlocked\n"); }

__attribute__((destructor)) static void lock(void) {
  put("the door is locked behind ");
  put_number(visitors);
  put(" visitors\n");
}
