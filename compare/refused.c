/* Counts the requests for memory that a program makes, and refuses some of them. It is loaded before the C library.

   REFUSED_FROM and REFUSED_TO are the first and the last number of those that are refused, from 1 on; without them none is. The file
   REFUSED_COUNTS has two numbers of 64 bits, which are kept up to date: how many were made, and how many of these were refused. */
#define _GNU_SOURCE
#include <errno.h>
#include <fcntl.h>
#include <stdlib.h>
#include <sys/mman.h>
#include <unistd.h>

extern void *__libc_malloc(size_t size);
extern void *__libc_calloc(size_t count, size_t size);
extern void *__libc_realloc(void *old, size_t size);
extern void *__libc_memalign(size_t alignment, size_t size);

struct counts {
    unsigned long long made, refused;
};

static struct counts *counts;
static unsigned long long from, to;

static unsigned long long number(const char *name) {
    const char *text = getenv(name);
    return text ? strtoull(text, NULL, 10) : 0;
}

/* The requests that come before this are those of the system, which loads the program. */
__attribute__((constructor)) static void begin(void) {
    const char *path = getenv("REFUSED_COUNTS");
    int file = path ? open(path, O_RDWR) : -1;
    if (file < 0)
        _exit(99);
    from = number("REFUSED_FROM");
    to = number("REFUSED_TO");
    void *shared = mmap(NULL, sizeof(struct counts), PROT_READ | PROT_WRITE, MAP_SHARED, file, 0);
    close(file);
    if (shared == MAP_FAILED)
        _exit(99);
    counts = shared;
}

/* Counts a request, and tells whether it is refused. */
static int is_refused(void) {
    if (!counts)
        return 0;
    unsigned long long at = ++counts->made;
    if (at < from || at > to)
        return 0;
    counts->refused++;
    errno = ENOMEM;
    return 1;
}

void *malloc(size_t size) {
    return is_refused() ? NULL : __libc_malloc(size);
}

void *calloc(size_t count, size_t size) {
    return is_refused() ? NULL : __libc_calloc(count, size);
}

void *realloc(void *old, size_t size) {
    return is_refused() ? NULL : __libc_realloc(old, size);
}

void *aligned_alloc(size_t alignment, size_t size) {
    return is_refused() ? NULL : __libc_memalign(alignment, size);
}

void *memalign(size_t alignment, size_t size) {
    return is_refused() ? NULL : __libc_memalign(alignment, size);
}

int posix_memalign(void **block, size_t alignment, size_t size) {
    if (is_refused())
        return ENOMEM;
    *block = __libc_memalign(alignment, size);
    return *block ? 0 : ENOMEM;
}
