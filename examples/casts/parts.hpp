// Classes with every kind of base: virtual, twice, and private.

#ifndef PARTS_HPP
#define PARTS_HPP

#include <memory>
#include <string>
#include <vector>

struct Part {
  virtual std::string name() const = 0;
  virtual ~Part() {}
};

// Another class, of which some parts are as well.
struct Priced {
  int price = 0;
  virtual ~Priced() {}
};

// One part, by two ways.
struct Engine : virtual Part {
  int power = 0;
  std::string name() const override { return "engine"; }
};
struct Radio : virtual Part {
  int stations = 0;
  std::string name() const override { return "radio"; }
};
struct Car : Engine, Radio, Priced {
  std::string name() const override { return "car"; }
};

// Two prices in one, so that there is no such thing as its price.
struct Ticket : Priced {};
struct Meal : Priced {};
struct Trip : Part, Ticket, Meal {
  std::string name() const override { return "trip"; }
};

// A price that nobody may see.
struct Gift : Part, private Priced {
  std::string name() const override { return "gift"; }
};

// Parts that a library makes. It has a class of its own beside these.
std::vector<std::unique_ptr<Part>> make_parts();

// Whether a part is of the library's own class.
bool is_own(const Part &part);

#endif
