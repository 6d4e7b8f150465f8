// What code in C++ calls, without a C++ library.

extern "C" {
#include "heap.h"
}

using size = decltype(sizeof 0);

void *operator new(size wanted) {
  void *taken = take(wanted);
  if (!taken) __builtin_trap();
  return taken;
}
void *operator new[](size wanted) { return operator new(wanted); }

void operator delete(void *) noexcept {}
void operator delete[](void *) noexcept {}
void operator delete(void *, size) noexcept {}
void operator delete[](void *, size) noexcept {}

// Destructors of objects that live until the end: they are kept by constructors, and called from the last to the first.
struct Ending {
  void (*destroy)(void *);
  void *object;
  Ending *before;
};
static Ending *last;

extern "C" int __cxa_atexit(void (*destroy)(void *), void *object, void *) {
  last = new Ending{destroy, object, last};
  return 0;
}

extern "C" void __cxa_finalize(void *) {
  while (last) {
    Ending ending = *last;
    last = ending.before;
    ending.destroy(ending.object);
  }
}

// Called where an abstract function has no body.
extern "C" void __cxa_pure_virtual() { __builtin_trap(); }
