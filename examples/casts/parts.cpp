#include "parts.hpp"

namespace {

struct Own : Engine, Priced {
  std::string name() const override { return "part of the library's own, which has a name that is longer than others"; }
};

} // namespace

std::vector<std::unique_ptr<Part>> make_parts() {
  std::vector<std::unique_ptr<Part>> parts;
  auto car = std::make_unique<Car>();
  car->power = 90;
  car->stations = 12;
  car->price = 7000;
  parts.push_back(std::move(car));
  parts.push_back(std::make_unique<Radio>());
  parts.push_back(std::make_unique<Trip>());
  parts.push_back(std::make_unique<Gift>());
  parts.push_back(std::make_unique<Own>());
  return parts;
}

bool is_own(const Part &part) { return dynamic_cast<const Own *>(&part); }
