// CRC-32 by a table, which a constructor fills before the program begins.

#include "report.h"

static unsigned table[256];

__attribute__((constructor)) static void fill(void) {
  for (unsigned n = 0; n < 256; n++) {
    unsigned rest = n;
    for (int bit = 0; bit < 8; bit++) rest = rest & 1 ? rest >> 1 ^ 0xEDB88320 : rest >> 1;
    table[n] = rest;
  }
}

void crc(const char *text) {
  unsigned sum = ~0u;
  for (; *text; text++) sum = table[(sum ^ (unsigned char)*text) & 255] ^ sum >> 8;
  report("CRC-32", ~sum);
}
