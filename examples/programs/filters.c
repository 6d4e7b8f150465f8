// Opens the libraries that its arguments name, one after the other, and sends a text through each.

#include "dl.h"
#include "io.h"

static void filter(const char *name, char *text) {
  void *library = dlopen(name, RTLD_NOW);
  if (!library) {
    put(dlerror() ? "not found: " : "no error: ");
    put(name);
    put("\n");
    return;
  }
  void (*change)(char *) = (void (*)(char *))dlsym(library, "change");
  const char *title = dlsym(library, "title");
  change(text);
  put(title);
  put(": ");
  put(text);
  dlclose(library);
}

int main(int count, char **arguments) {
  static char text[256];
  int c;
  for (int n = 0; n < 255 && (c = get()) >= 0; n++) text[n] = c;
  for (int n = 1; n < count; n++) filter(arguments[n], text);
  return 0;
}
