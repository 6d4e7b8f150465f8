#ifndef REPORT_H
#define REPORT_H

// How many sums were reported.
extern int reported;

void report(const char *kind, unsigned sum);

#endif
