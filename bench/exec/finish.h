// Ends the program with a result; an engine shows it as the exit code, modulo 256.
__attribute__((import_module("wasi_snapshot_preview1"), import_name("proc_exit"))) void finish(unsigned result);
