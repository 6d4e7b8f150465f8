// Text out and in. In a module these are calls of WASI, elsewhere calls of the system.

#ifndef IO_H
#define IO_H

#ifdef __cplusplus
extern "C" {
#endif

void put(const char *text);
void put_number(unsigned number);
void put_hexadecimal(unsigned number);

// The next byte of the input, or -1 at its end.
int get(void);

#ifdef __cplusplus
}
#endif

#endif
