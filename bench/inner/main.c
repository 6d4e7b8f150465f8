// The work of main.rattle in plain C: a byte array with a check of its bounds, and memcpy for each access.
#include <stdint.h>
#include <stdio.h>
#include <stdlib.h>
#include <string.h>

enum { COUNT = 100000000, KIB = 1024, MIB = 1024 * KIB, PAGE = 65536 };

// A memory.
struct space {
  uint8_t *bytes;
  size_t size;
};

static void stop(const char *why) {
  fprintf(stderr, "%s\n", why);
  exit(1);
}

static uint64_t load(const struct space *space, uint32_t base, uint32_t offset, unsigned length) {
  size_t at = (size_t)base + offset;
  if (at + length > space->size) stop("out of bounds");
  if (length == 4) {
    uint32_t value;
    memcpy(&value, space->bytes + at, 4);
    return value;
  }
  uint64_t value;
  memcpy(&value, space->bytes + at, 8);
  return value;
}

static void store(struct space *space, uint32_t base, uint32_t offset, unsigned length, uint64_t value) {
  size_t at = (size_t)base + offset;
  if (at + length > space->size) stop("out of bounds");
  if (length == 4) {
    uint32_t low = (uint32_t)value;
    memcpy(space->bytes + at, &low, 4);
    return;
  }
  memcpy(space->bytes + at, &value, 8);
}

static uint64_t divide_wide(uint64_t a, uint64_t b) {
  if (b == 0) stop("division by zero");
  if ((int64_t)a == INT64_MIN && (int64_t)b == -1) stop("overflow");
  return (uint64_t)((int64_t)a / (int64_t)b);
}

static uint64_t divide_narrow(uint32_t a, uint32_t b) {
  if (b == 0) stop("division by zero");
  if ((int32_t)a == INT32_MIN && (int32_t)b == -1) stop("overflow");
  return (uint32_t)((int32_t)a / (int32_t)b);
}

static uint32_t place(uint32_t i) { return i * 0x9E3779B1u % (16 * KIB); }

static void prepare(struct space *space) {
  for (uint32_t i = 0; i < 8192; i++) store(space, i * 8, 0, 8, i * 0x9E3779B97F4A7C15u);
}

static uint64_t loads(const struct space *space, unsigned length) {
  uint64_t sum = 0;
  for (uint32_t i = 0; i < COUNT; i++) sum += load(space, place(i), 16, length);
  return sum;
}

static uint64_t sum_of(const struct space *space) {
  uint64_t sum = 0;
  for (uint32_t i = 0; i < 4 * MIB / 8; i++) sum = sum * 31 + load(space, i * 8, 0, 8);
  return sum;
}

static uint64_t stores(struct space *space, unsigned length) {
  for (uint32_t i = 0; i < COUNT; i++) store(space, place(i), 16, length, i);
  return sum_of(space);
}

static uint64_t add_wide(void) {
  uint64_t sum = 1;
  for (uint32_t i = 0; i < COUNT; i++) sum = (sum ^ i) + i;
  return sum;
}

static uint64_t add_narrow(void) {
  uint32_t sum = 1;
  for (uint32_t i = 0; i < COUNT; i++) sum = (sum ^ i) + i;
  return sum;
}

static uint64_t divisions_wide(void) {
  uint64_t sum = 0;
  for (uint32_t i = 0; i < COUNT; i++) sum += divide_wide(i * 0x9E3779B97F4A7C15u, i % 1024 + 3);
  return sum;
}

static uint64_t divisions_narrow(void) {
  uint64_t sum = 0;
  for (uint32_t i = 0; i < COUNT; i++) sum += divide_narrow(i * 0x9E3779B1u, i % 1024 + 3);
  return sum;
}

static uint64_t turn(uint32_t i, uint64_t a, uint64_t b) {
  switch (i % 8) {
    case 0: return a + b;
    case 1: return a - b;
    case 2: return a * b;
    case 3: return a ^ b;
    case 4: return a << b % 64;
    case 5: return a << b % 64 | a >> -b % 64;
    case 6: return a >> b % 64;
    default: return a >> b % 64 | a << -b % 64;
  }
}

static uint64_t turns(void) {
  uint64_t sum = 1;
  for (uint32_t i = 0; i < COUNT; i++) sum = turn(i, sum, i * 0x9E3779B1u);
  return sum;
}

static void copy(struct space *space, size_t to, size_t from, size_t length) {
  if (from + length > space->size || to + length > space->size) stop("out of bounds");
  memmove(space->bytes + to, space->bytes + from, length);
}

static uint64_t copies(struct space *space, uint32_t length, uint32_t times) {
  for (uint32_t i = 0; i < times; i++) copy(space, 2 * MIB + i % 64, i % 32, length);
  return sum_of(space);
}

static uint64_t copies_up(struct space *space, uint32_t length, uint32_t times) {
  size_t distance = space->size / PAGE / 8;
  for (uint32_t i = 0; i < times; i++) copy(space, i % 64 + distance, i % 64, length);
  return sum_of(space);
}

static uint64_t copies_down(struct space *space, uint32_t length, uint32_t times) {
  size_t distance = space->size / PAGE / 8;
  for (uint32_t i = 0; i < times; i++) copy(space, i % 64, i % 64 + distance, length);
  return sum_of(space);
}

static uint64_t inits(struct space *space, uint32_t length, uint32_t times) {
  size_t size = length + 64;
  uint8_t *bytes = malloc(size);
  if (!bytes) stop("no memory");
  memset(bytes, 7, size);
  for (uint32_t i = 0; i < times; i++) {
    size_t to = 2 * MIB + i % 64, from = i % 32;
    if (from + length > size || to + length > space->size) stop("out of bounds");
    memcpy(space->bytes + to, bytes + from, length);
  }
  free(bytes);
  return sum_of(space);
}

static uint64_t fills(struct space *space, uint32_t length, uint32_t times) {
  for (uint32_t i = 0; i < times; i++) {
    size_t to = i % 64;
    if (to + length > space->size) stop("out of bounds");
    memset(space->bytes + to, (int)(i % 256), length);
  }
  return sum_of(space);
}

static uint64_t work(struct space *space, const char *word) {
  if (!strcmp(word, "start")) return 0;
  if (!strcmp(word, "load8")) return loads(space, 8);
  if (!strcmp(word, "load4")) return loads(space, 4);
  if (!strcmp(word, "store8")) return stores(space, 8);
  if (!strcmp(word, "store4")) return stores(space, 4);
  if (!strcmp(word, "add64")) return add_wide();
  if (!strcmp(word, "add32")) return add_narrow();
  if (!strcmp(word, "divide64")) return divisions_wide();
  if (!strcmp(word, "divide32")) return divisions_narrow();
  if (!strcmp(word, "turns64")) return turns();
  if (!strcmp(word, "copy64k")) return copies(space, 64 * KIB, 16384);
  if (!strcmp(word, "copy1m")) return copies(space, MIB, 1024);
  if (!strcmp(word, "up64k")) return copies_up(space, 64 * KIB, 16384);
  if (!strcmp(word, "down64k")) return copies_down(space, 64 * KIB, 16384);
  if (!strcmp(word, "init64k")) return inits(space, 64 * KIB, 16384);
  if (!strcmp(word, "fill64k")) return fills(space, 64 * KIB, 16384);
  if (!strcmp(word, "fill1m")) return fills(space, MIB, 1024);
  stop("no such work");
  return 0;
}

int main(int count, char **words) {
  if (count != 3) stop("usage: inner PAGES WORK");
  size_t pages = strtoul(words[1], NULL, 10);
  struct space space = {calloc(pages, PAGE), pages * PAGE};
  if (!space.bytes) stop("no memory");
  prepare(&space);
  printf("%llu\n", (unsigned long long)work(&space, words[2]));
  return 0;
}
