// Makes calls of WASI that are refused and calls that are just not, and puts what each answers.

#include "io.h"

struct vector {
  const void *at;
  unsigned length;
};

#define WASI(name) __attribute__((import_module("wasi_snapshot_preview1"), import_name(#name)))
WASI(args_get) int args_get(void *arguments, void *texts);
WASI(args_sizes_get) int args_sizes_get(void *count, void *size);
WASI(clock_time_get) int clock_time_get(int clock, unsigned long long precision, void *time);
WASI(environ_get) int environ_get(void *variables, void *texts);
WASI(environ_sizes_get) int environ_sizes_get(void *count, void *size);
WASI(fd_close) int fd_close(int fd);
WASI(fd_fdstat_get) int fd_fdstat_get(int fd, void *to);
WASI(fd_prestat_dir_name) int fd_prestat_dir_name(int fd, void *path, unsigned length);
WASI(fd_prestat_get) int fd_prestat_get(int fd, void *to);
WASI(fd_read) int fd_read(int fd, const void *vectors, unsigned count, void *done);
WASI(fd_seek) int fd_seek(int fd, long long offset, int whence, void *to);
WASI(fd_sync) int fd_sync(int fd);
WASI(fd_write) int fd_write(int fd, const void *vectors, unsigned count, void *done);
WASI(random_get) int random_get(void *to, unsigned length);
WASI(sched_yield) int sched_yield(void);

static void told(const char *what, int errno) {
  put(what);
  put(": ");
  put_number(errno);
  put("\n");
}

static char bytes[70000];
static struct vector vectors[1025], one = {bytes, 1}, outside, beyond;

static void arguments(char *end) {
  unsigned kept = 7;
  told("args_sizes_get, size outside", args_sizes_get(&kept, end));
  told("args_get, pointers outside", args_get(end, bytes));
  told("args_get, texts outside", args_get(bytes, end));
  told("environ_sizes_get, count outside", environ_sizes_get(end, &kept));
  told("environ_get, both outside", environ_get(end, end));
  told("kept", kept);
  told("environ_sizes_get", environ_sizes_get(&kept, bytes));
  told("kept", kept);
}

static void written(char *end) {
  unsigned done = 7;
  told("fd_write to 0", fd_write(0, &one, 1, &done));
  told("fd_write to 3, 1025 vectors", fd_write(3, vectors, 1025, &done));
  told("fd_write, 1025 vectors", fd_write(1, vectors, 1025, &done));
  told("fd_write, vectors outside", fd_write(1, end - 7, 1, &done));
  told("fd_write, a buffer outside", fd_write(1, &outside, 1, &done));
  told("fd_write, a buffer that ends beyond all", fd_write(1, &beyond, 1, &done));
  told("fd_write, number outside", fd_write(1, &one, 1, end - 3));
  told("kept", done);
  told("fd_write, no vectors at the end", fd_write(1, end, 0, &done));
  told("fd_write, no vectors behind the end", fd_write(1, end + 1, 0, &done));
  told("done", done);
  done = 7;
  told("fd_write, 1024 vectors without bytes", fd_write(2, vectors, 1024, &done));
  told("done", done);
}

static void taken(char *end) {
  unsigned done = 7;
  told("fd_read from 1", fd_read(1, &one, 1, &done));
  told("fd_read, 1025 vectors", fd_read(0, vectors, 1025, &done));
  told("fd_read, vectors outside", fd_read(0, end - 7, 1, &done));
  told("fd_read, a buffer outside", fd_read(0, &outside, 1, &done));
  told("fd_read, number outside", fd_read(0, &one, 1, end - 3));
  told("kept", done);
  struct vector two[] = {{bytes, 3}, {bytes + 8, 4}};
  told("fd_read, two buffers", fd_read(0, two, 2, &done));
  told("done", done);
  put(bytes);
  put(bytes + 8);
  put("\n");
  told("fd_read, without bytes", fd_read(0, vectors, 1, &done));
  told("done", done);
}

static void others(char *end) {
  told("fd_close 2", fd_close(2));
  told("fd_close 3", fd_close(3));
  told("fd_seek 0", fd_seek(0, 0, 0, bytes));
  told("fd_seek 3", fd_seek(3, 0, 0, bytes));
  told("fd_fdstat_get 3", fd_fdstat_get(3, bytes));
  told("fd_fdstat_get, outside", fd_fdstat_get(0, end - 23));
  for (int fd = 0; fd < 3; fd++) {
    told("fd_fdstat_get", fd_fdstat_get(fd, bytes));
    told("kind", bytes[0]);
    told("rights", bytes[8]);
  }
  told("fd_prestat_get", fd_prestat_get(3, bytes));
  told("fd_prestat_dir_name", fd_prestat_dir_name(3, bytes, 1));
  told("clock_time_get 0", clock_time_get(0, 0, bytes));
  told("clock_time_get 1", clock_time_get(1, 0, bytes));
  told("clock_time_get 2", clock_time_get(2, 0, end));
  told("clock_time_get, outside", clock_time_get(0, 0, end - 7));
  told("random_get of 65536", random_get(bytes, 65536));
  told("random_get of 65537", random_get(bytes, 65537));
  told("random_get of 65537, outside", random_get(end - 65536, 65537));
  told("fd_sync", fd_sync(1));
  told("sched_yield", sched_yield());
}

int main(void) {
  char *end = (char *)(__builtin_wasm_memory_size(0) * 65536);
  outside = (struct vector){end - 1, 2};
  beyond = (struct vector){bytes, -1u};
  arguments(end);
  written(end);
  taken(end);
  others(end);
  return 0;
}
