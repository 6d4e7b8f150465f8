#ifndef TALLY_H
#define TALLY_H

// A text of so many numbers, which the caller frees.
char *tally(const int *numbers, int count);

// Tells of an error, by the number that errno has.
void complain(const char *what);

#endif
