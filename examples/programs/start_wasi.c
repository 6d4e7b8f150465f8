// The entry of a main module that has the C library wasi-libc, in place of its crt1-command.o, which calls neither constructors nor what
// is due at the end where the module is position independent. __main_void of the library asks for the arguments and calls main; exit
// calls what atexit and destructors have given, and puts out what is held of the output.

void __wasm_call_ctors(void);
int __main_void(void);
_Noreturn void exit(int status);

void _start(void) {
  __wasm_call_ctors();
  exit(__main_void());
}
