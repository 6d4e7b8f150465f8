// Memory that is taken and never given back. One member of a set defines it, for all.

#ifndef HEAP_H
#define HEAP_H

#ifdef __cplusplus
extern "C" {
#endif

// So many bytes at a multiple of 16 which nothing else has, or 0 where the memory can't grow any more.
void *take(unsigned long size);

#ifdef __cplusplus
}
#endif

#endif
