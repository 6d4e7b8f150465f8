// What a program says to open a library while it runs. The numbers are those of Linux.

#ifndef DL_H
#define DL_H

#ifdef __cplusplus
extern "C" {
#endif

enum { RTLD_LAZY = 1, RTLD_NOW = 2, RTLD_GLOBAL = 256 };

void *dlopen(const char *name, int flags);
void *dlsym(void *library, const char *name);
int dlclose(void *library);
char *dlerror(void);

#ifdef __cplusplus
}
#endif

#endif
