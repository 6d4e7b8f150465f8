// Makes shapes, some of its own and some by a library, and puts their areas.

#include "shape.hpp"

extern "C" {
#include "io.h"
}

static void put_number_of(const char *what, int number) {
  put(what);
  put_number(number);
  put("\n");
}

int main() {
  Shape *shapes[] = {new Rectangle(3, 4), make_square(5), new Rectangle(6, 7), make_square(8)};
  for (Shape *shape : shapes) {
    put_number(shape->number);
    put(" ");
    put(shape->name());
    put_number_of(": ", shape->area());
  }
  put_number_of("counted by the program: ", Made<Rectangle>::count);
  put_number_of("counted by the library: ", made_by_library());
  for (Shape *shape : shapes) delete shape;
  return 0;
}
