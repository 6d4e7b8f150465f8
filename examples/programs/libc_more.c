// Names by which code for wasm32-unknown-emscripten uses a C library, and which wasi-libc hasn't. Part of libc.so.

#include <errno.h>
#include <stdarg.h>
#include <stdio.h>

// Where the headers of Emscripten have errno.
int *__errno_location(void) { return &errno; }

// So clang calls printf and its like, where no argument has floating point.
#define FORWARD(name, parameters, call) \
  int name parameters { \
    va_list arguments; \
    va_start(arguments, format); \
    int count = call; \
    va_end(arguments); \
    return count; \
  }

FORWARD(iprintf, (const char *format, ...), vprintf(format, arguments))
FORWARD(fiprintf, (FILE * stream, const char *format, ...), vfprintf(stream, format, arguments))
FORWARD(siprintf, (char *text, const char *format, ...), vsprintf(text, format, arguments))
FORWARD(__small_printf, (const char *format, ...), vprintf(format, arguments))
FORWARD(__small_fprintf, (FILE * stream, const char *format, ...), vfprintf(stream, format, arguments))
FORWARD(__small_sprintf, (char *text, const char *format, ...), vsprintf(text, format, arguments))
