// A library that is opened while the program runs. Its classes are those of the program.

#include "parts.hpp"

namespace {

struct Own : Car {
  std::string name() const override { return "late car"; }
};

} // namespace

extern "C" Part *make_late(bool wants_own) {
  if (wants_own) return new Own;
  return new Gift;
}
