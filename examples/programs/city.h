#ifndef CITY_H
#define CITY_H

// A place on the one street of the city, in metres from its west end.
struct station {
  const char *name;
  int at;
};

struct line {
  const char *name;
  int (*minutes)(int metres);
  const struct station *stops[4];
};

extern const struct station north, market, harbour;

int by_tram(int metres);
int by_ferry(int metres);

// The last one has no name.
extern const struct line lines[];

#endif
