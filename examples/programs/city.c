#include "city.h"

const struct station north = {"North", 400}, market = {"Market", 2400}, harbour = {"Harbour", 3900};

int by_tram(int metres) { return metres / 500; }

int by_ferry(int metres) { return 5 + metres / 300; }
