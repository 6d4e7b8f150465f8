// Libraries that are opened while a program runs, by the names that POSIX gives. The numbers are those of Linux.

#ifndef DLFCN_H
#define DLFCN_H

#define RTLD_LAZY 1
#define RTLD_NOW 2
#define RTLD_LOCAL 0
#define RTLD_GLOBAL 256
#define RTLD_NODELETE 4096

// As a library: what starts with the program, and what was opened with RTLD_GLOBAL.
#define RTLD_DEFAULT ((void *)0)

#ifdef __cplusplus
extern "C" {
#endif

void *dlopen(const char *name, int flags);
void *dlsym(void *library, const char *name);
int dlclose(void *library);
char *dlerror(void);

#ifdef __cplusplus
}
#endif

#endif
