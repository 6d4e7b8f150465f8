// Calls functions of libraries by name and by address, and reads a library's data.

void english(void);
void german(void);
void say(const char *text);
extern int said;

void (*const greetings[])(void) = {english, german, german};

void _start(void) {
  for (int i = 0; i < 3; i++) greetings[i]();
  char text[] = "0 texts\n";
  text[0] += said;
  say(text);
}
