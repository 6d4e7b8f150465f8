// The entry of a main module in C++: its constructors, main, with the arguments or without, and the destructors of the set. The
// arguments lie on the stack.

#define WASI(name) extern "C" __attribute__((import_module("wasi_snapshot_preview1"), import_name(#name)))
WASI(args_sizes_get) int args_sizes_get(unsigned *count, unsigned *size);
WASI(args_get) int args_get(char **arguments, char *texts);
WASI(proc_exit) void proc_exit(int status);

extern "C" void __wasm_call_ctors();
extern "C" void __cxa_finalize(void *);

// The program defines one of the two.
int main();
__attribute__((weak)) int main(int, char **) { return main(); }

extern "C" void _start() {
  unsigned count, size;
  args_sizes_get(&count, &size);
  char **arguments = static_cast<char **>(__builtin_alloca((count + 1) * sizeof(char *)));
  char *texts = static_cast<char *>(__builtin_alloca(size));
  // they don't fit into the memory where the stack is too small for them
  if (args_get(arguments, texts)) __builtin_trap();
  arguments[count] = nullptr;
  __wasm_call_ctors();
  int status = main(count, arguments);
  __cxa_finalize(nullptr);
  if (status) proc_exit(status);
}
