// Sums of whole numbers. The program and the second library use the first one.

#ifndef NUMBERS_H
#define NUMBERS_H

unsigned sum_to(unsigned last);
extern unsigned sums;

void tell(const char *what, unsigned number);

#endif
