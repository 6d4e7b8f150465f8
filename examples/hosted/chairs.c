// A member of an archive, with a constructor of its own.

static int number;

__attribute__((constructor)) static void place(void) { number = 2; }

int chairs(void) { return number; }
