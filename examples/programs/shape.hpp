// Shapes with sides of whole numbers.

#ifndef SHAPE_HPP
#define SHAPE_HPP

// The data of templates and of inline functions: the program and its library both have it, and share it.
template <class Kind> struct Made {
  static int count;
};
template <class Kind> int Made<Kind>::count = 0;

inline int next_number() {
  static int last = 0;
  return ++last;
}

struct Shape {
  const int number = next_number();
  virtual const char *name() const = 0;
  virtual int area() const = 0;
  virtual ~Shape() {}
};

struct Rectangle : Shape {
  const int width, height;
  Rectangle(int width, int height) : width(width), height(height) { Made<Rectangle>::count++; }
  const char *name() const override { return "rectangle"; }
  int area() const override { return width * height; }
};

// A square, whose class only the library knows.
Shape *make_square(int side);

int made_by_library();

#endif
