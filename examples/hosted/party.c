// A program with a C library: constructors, main, atexit and destructors all put something out, and the last text has no line feed.

#include <stdio.h>
#include <stdlib.h>
#include <string.h>

char *greeting(const char *guest);
int chairs(void);

__attribute__((constructor)) static void begin(void) { puts("the party begins"); }

__attribute__((destructor)) static void end(void) { puts("the party ends"); }

static void part(void) { puts("\ngood bye"); }

int main(int count, char **arguments) {
  atexit(part);
  char line[80];
  while (fgets(line, sizeof line, stdin)) printf("a message of %d bytes\n", (int)strlen(line));
  for (int n = 1; n < count; n++) {
    char *text = greeting(arguments[n]);
    puts(text);
    free(text);
  }
  printf("%d guests on %d chairs", count - 1, chairs());
  return count - 1 <= chairs() ? 0 : 1;
}
