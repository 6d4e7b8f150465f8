#include "shape.hpp"

extern "C" {
#include "io.h"
}

namespace {

struct Square : Rectangle {
  Square(int side) : Rectangle(side, side) {}
  const char *name() const override { return "square"; }
};

// An object with a constructor and a destructor, which are called before and after the program.
struct Workshop {
  int squares = 0;
  Workshop() { put("the workshop opens\n"); }
  ~Workshop() {
    put("the workshop closes, squares: ");
    put_number(squares);
    put("\n");
  }
};

Workshop workshop;

}

Shape *make_square(int side) {
  workshop.squares++;
  return new Square(side);
}

int made_by_library() { return Made<Rectangle>::count; }
