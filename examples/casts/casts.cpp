// Asks of parts, which other modules make, what else they are.

#include "parts.hpp"
#include <algorithm>
#include <dlfcn.h>
#include <functional>
#include <map>
#include <optional>
#include <stdio.h>
#include <string_view>
#include <typeinfo>

// Counts the parts of each kind that there was.
static std::map<std::string, int> kinds;

static std::optional<int> price_of(const Part &part) {
  if (auto *priced = dynamic_cast<const Priced *>(&part)) return priced->price;
  return std::nullopt;
}

static void tell(Part &part) {
  std::string name = part.name();
  printf("%s: type %s", name.c_str(), typeid(part).name());
  if (auto *engine = dynamic_cast<Engine *>(&part)) printf(", engine of %d", engine->power);
  if (auto *radio = dynamic_cast<Radio *>(&part)) printf(", radio of %d", radio->stations);
  if (auto *car = dynamic_cast<Car *>(&part)) printf(", car%s", dynamic_cast<void *>(car) == dynamic_cast<void *>(&part) ? "" : " elsewhere");
  if (dynamic_cast<Ticket *>(&part)) printf(", ticket");
  if (dynamic_cast<Gift *>(&part)) printf(", gift");
  if (auto price = price_of(part)) printf(", price %d", *price);
  printf(is_own(part) ? ", of the library's own\n" : "\n");
  kinds[name.substr(0, name.find(' '))]++;
}

// From one base of an object across to another.
static void cross(Part &part) {
  auto *ticket = dynamic_cast<Ticket *>(&part);
  auto *meal = dynamic_cast<Meal *>(ticket);
  auto *radio = dynamic_cast<Radio *>(&part);
  auto *engine = dynamic_cast<Engine *>(radio);
  auto *priced = dynamic_cast<Priced *>(radio);
  auto *back = dynamic_cast<Radio *>(priced);
  std::string_view is = part.name() == "car" ? "a car" : "no car";
  printf("%.*s: %d%d%d%d%d\n", (int)is.size(), is.data(), meal != nullptr, engine != nullptr, priced != nullptr, back == radio,
         dynamic_cast<Part *>(meal) == &part);
}

int main(int count, char **words) {
  auto parts = make_parts();
  if (count > 1) {
    void *library = dlopen(words[1], RTLD_NOW);
    if (!library) return puts("no such library"), 1;
    auto make_late = (Part * (*)(bool)) dlsym(library, "make_late");
    parts.emplace_back(make_late(true));
    parts.emplace_back(make_late(false));
  }
  std::function<void(void (*)(Part &))> each = [&parts](void (*ask)(Part &)) {
    for (auto &part : parts) ask(*part);
  };
  each(tell);
  each(cross);
  std::sort(parts.begin(), parts.end(), [](auto &one, auto &other) { return one->name() < other->name(); });
  for (auto &part : parts) printf("%s\n", part->name().c_str());
  std::vector<int> counts;
  for (auto &[kind, times] : kinds) {
    printf("%s %d\n", kind.c_str(), times);
    counts.push_back(-times * (int)kind.size());
  }
  std::sort(counts.begin(), counts.end());
  std::string line = "sizes";
  for (int n : counts) line += " " + std::to_string(n);
  puts(line.c_str());
}
