// A filter: a title, and a function that changes a text in place.

int is_lower(char c);

const char title[] = "upper";

void change(char *text) {
  for (; *text; text++)
    if (is_lower(*text)) *text -= 'a' - 'A';
}
