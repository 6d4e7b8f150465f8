void say(const char *text);

int turn;

// An address of data in data, which is written when the library is relocated.
const char *const texts[] = {"Hallo\n", "Guten Tag\n"};

void german(void) { say(texts[turn++ % 2]); }
