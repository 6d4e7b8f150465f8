// A library that takes memory of the C library, may end the program, and puts the last text of all.

#include <stdio.h>
#include <stdlib.h>
#include <string.h>

__attribute__((constructor)) static void open_hall(void) { puts("the hall is open"); }

__attribute__((destructor)) static void close_hall(void) { fputs("the hall is closed", stdout); }

char *greeting(const char *guest) {
  if (!strcmp(guest, "nobody")) {
    fputs("nobody is welcome", stdout);
    exit(3);
  }
  char *text = malloc(80);
  snprintf(text, 80, "welcome, %s", guest);
  return text;
}
