void say(const char *text);

void english(void) { say("Hello\n"); }
