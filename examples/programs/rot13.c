// A filter: a title, and a function that changes a text in place.

int is_lower(char c);
int is_upper(char c);

const char title[] = "rot13";

void change(char *text) {
  for (; *text; text++) {
    char first = is_lower(*text) ? 'a' : is_upper(*text) ? 'A' : 0;
    if (first) *text = first + (*text - first + 13) % 26;
  }
}
