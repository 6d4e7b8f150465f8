// Reads numbers and names from its input, and asks much of the C library.

#include "tally.h"
#include <ctype.h>
#include <errno.h>
#include <limits.h>
#include <stdio.h>
#include <stdlib.h>
#include <string.h>
#include <time.h>

static int by_size(const void *one, const void *other) {
  int a = *(const int *)one, b = *(const int *)other;
  return (a > b) - (a < b);
}

static __attribute__((constructor)) void begin(void) { puts("main begins"); }

static void scans(void) {
  int a = 0, b = 0;
  unsigned c = 0;
  char name[20] = "", rest[20] = "";
  int found = scanf("%d %i %x", &a, &b, &c);
  printf("%d found: %d %d %u\n", found, a, b, c);
  found = scanf(" %19[a-z]=%*d;%19s", name, rest);
  printf("%d found: %s %s\n", found, name, rest);
  long long big = 0;
  int read = 0;
  found = sscanf("-9000000000 tail", "%lld%n", &big, &read);
  printf("%d found: %lld in %d letters\n", found, big, read);
}

static void sorts(void) {
  int numbers[] = {5, 3, 9, INT_MIN, 1, INT_MAX / 2}, key = 9;
  qsort(numbers, 6, sizeof *numbers, by_size);
  char *text = tally(numbers, 6);
  printf("%s%td\n", text, (int *)bsearch(&key, numbers, 6, sizeof *numbers, by_size) - numbers);
  free(text);
}

static void reads(void) {
  char line[80], *save;
  while (fgets(line, sizeof line, stdin)) {
    for (char *word = strtok_r(line, " \n", &save); word; word = strtok_r(NULL, " \n", &save)) {
      for (char *at = word; *at; at++) *at = toupper(*at);
      printf("[%s]", word);
    }
    putchar('\n');
  }
}

static void fails(void) {
  errno = 0;
  strtol("99999999999999999999999", NULL, 10);
  complain("a long number");
  FILE *file = fopen("nowhere/nothing", "r");
  printf("%s\n", file ? "a file" : "no file");
}

int main(int count, char **words) {
  scans();
  reads();
  sorts();
  fails();
  time_t moment = 86400 * 365;
  char date[40];
  strftime(date, sizeof date, "%Y-%m-%d %H:%M", gmtime(&moment));
  printf("%s, %05d|%-6s|%+d|%#x|%.2s|%s\n", date, 42, "left", 7, 255, "cut", words[count - 1]);
  printf("no line feed at the end, ");
  return 3;
}
