// Two checksums of two texts. Each kind is a library of its own, and both report by a third.

#include "io.h"
#include "report.h"

void crc(const char *text);
void adler(const char *text);

int main(void) {
  const char *texts[] = {"123456789", "Wikipedia"};
  for (int n = 0; n < 2; n++) {
    crc(texts[n]);
    adler(texts[n]);
  }
  put_number(reported);
  put(" sums\n");
  return 0;
}
