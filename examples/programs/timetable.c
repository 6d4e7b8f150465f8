#include "city.h"
#include "io.h"

int main(void) {
  for (const struct line *line = lines; line->name; line++) {
    int minutes = 0;
    put(line->name);
    for (const struct station *const *stop = line->stops; *stop; stop++) {
      put(stop == line->stops ? ": " : ", ");
      put((*stop)->name);
      if (stop == line->stops) continue;
      int metres = stop[0]->at - stop[-1]->at;
      minutes += line->minutes(metres < 0 ? -metres : metres);
    }
    put(": ");
    put_number(minutes);
    put(" minutes\n");
  }
  return 0;
}
