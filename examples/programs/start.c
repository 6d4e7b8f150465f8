// The entry of a main module: it asks for the arguments, calls constructors, main and destructors, and ends with the status of main.
// The arguments lie on the stack.

#define WASI(name) __attribute__((import_module("wasi_snapshot_preview1"), import_name(#name)))
WASI(args_sizes_get) int args_sizes_get(unsigned *count, unsigned *size);
WASI(args_get) int args_get(char **arguments, char *texts);
WASI(proc_exit) _Noreturn void proc_exit(int status);

void __wasm_call_ctors(void);
int main(int count, char **arguments);

// Constructors tell of the destructors that are to be called, of all members. Where there are more, the program traps.
enum { MOST_ENDINGS = 128 };
static struct {
  void (*call)(void *);
  void *object;
} endings[MOST_ENDINGS];
static int due;

__attribute__((weak)) int __cxa_atexit(void (*call)(void *), void *object, void *member) {
  if (due == MOST_ENDINGS) __builtin_trap();
  endings[due].call = call;
  endings[due++].object = object;
  return 0;
}

__attribute__((weak)) void __cxa_finalize(void *member) {
  while (due) {
    due--;
    endings[due].call(endings[due].object);
  }
}

void _start(void) {
  unsigned count, size;
  args_sizes_get(&count, &size);
  char *arguments[count + 1], texts[size];
  // they don't fit into the memory where the stack is too small for them
  if (args_get(arguments, texts)) __builtin_trap();
  arguments[count] = 0;
  __wasm_call_ctors();
  int status = main(count, arguments);
  __cxa_finalize(0);
  if (status) proc_exit(status);
}
