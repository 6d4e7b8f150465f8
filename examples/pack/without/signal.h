// A header of liblzma names signals, which its code without threads doesn't use, and WASI hasn't.

#ifdef __wasi__
typedef int sigset_t;

static inline int sigprocmask(int how, const sigset_t *set, sigset_t *before) { return 0; }
#else
#include_next <signal.h>
#endif
