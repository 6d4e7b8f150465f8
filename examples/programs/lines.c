// Data that points into another library: at stations, which are data there, and at functions.

#include "city.h"

const struct line lines[] = {
    {"red", by_tram, {&north, &market, &harbour}},
    {"blue", by_ferry, {&harbour, &market}},
    {0},
};
