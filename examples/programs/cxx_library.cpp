// What the headers of libc++ leave to its library, as far as it has no floating point, streams or exceptions. Part of libcxx.so.

#include <algorithm>
#include <errno.h>
#include <memory>
#include <new>
#include <stdlib.h>
#include <string>

// ---- memory: that of the C library. Where there is none, the program ends, or nothrow forms answer null.

static void *some(size_t size) {
  if (void *taken = malloc(size ? size : 1)) return taken;
  abort();
}

static void *aligned(size_t size, std::align_val_t alignment) {
  size_t unit = (size_t)alignment;
  return size > -unit ? nullptr : aligned_alloc(unit, (size + unit - 1) & -unit);
}

static void *some_aligned(size_t size, std::align_val_t alignment) {
  if (void *taken = aligned(size ? size : 1, alignment)) return taken;
  abort();
}

const std::nothrow_t std::nothrow{};

void *operator new(size_t size) { return some(size); }
void *operator new[](size_t size) { return some(size); }
void *operator new(size_t size, std::align_val_t alignment) { return some_aligned(size, alignment); }
void *operator new[](size_t size, std::align_val_t alignment) { return some_aligned(size, alignment); }
void *operator new(size_t size, const std::nothrow_t &) noexcept { return malloc(size ? size : 1); }
void *operator new[](size_t size, const std::nothrow_t &) noexcept { return malloc(size ? size : 1); }
void *operator new(size_t size, std::align_val_t alignment, const std::nothrow_t &) noexcept { return aligned(size ? size : 1, alignment); }
void *operator new[](size_t size, std::align_val_t alignment, const std::nothrow_t &) noexcept { return aligned(size ? size : 1, alignment); }

void operator delete(void *taken) noexcept { free(taken); }
void operator delete[](void *taken) noexcept { free(taken); }
void operator delete(void *taken, size_t) noexcept { free(taken); }
void operator delete[](void *taken, size_t) noexcept { free(taken); }
void operator delete(void *taken, std::align_val_t) noexcept { free(taken); }
void operator delete[](void *taken, std::align_val_t) noexcept { free(taken); }
void operator delete(void *taken, size_t, std::align_val_t) noexcept { free(taken); }
void operator delete[](void *taken, size_t, std::align_val_t) noexcept { free(taken); }
void operator delete(void *taken, const std::nothrow_t &) noexcept { free(taken); }
void operator delete[](void *taken, const std::nothrow_t &) noexcept { free(taken); }
void operator delete(void *taken, std::align_val_t, const std::nothrow_t &) noexcept { free(taken); }
void operator delete[](void *taken, std::align_val_t, const std::nothrow_t &) noexcept { free(taken); }

// ---- what code calls unasked

extern "C" {

void __cxa_pure_virtual() { __builtin_trap(); }
void __cxa_deleted_virtual() { __builtin_trap(); }

// Of an object in a function, whose first byte tells whether it is there. There are no threads.
int __cxa_guard_acquire(char *guard) { return !*guard; }
void __cxa_guard_release(char *guard) { *guard = 1; }
void __cxa_guard_abort(char *) {}

int __cxa_atexit(void (*)(void *), void *, void *);
int __cxa_thread_atexit(void (*destroy)(void *), void *object, void *member) { return __cxa_atexit(destroy, object, member); }

}

// ---- what the headers call

_LIBCPP_BEGIN_NAMESPACE_STD

// ---- strings

template class basic_string<char>;
template basic_string<char> &basic_string<char>::__assign_no_alias<true>(const char *, size_t);
template basic_string<char> &basic_string<char>::__assign_no_alias<false>(const char *, size_t);
template string operator+<char, char_traits<char>, allocator<char>>(const char *, const string &);

static string written(unsigned long long number, bool is_negative) {
  char digits[24], *at = digits + sizeof digits;
  do *--at = '0' + number % 10;
  while (number /= 10);
  if (is_negative) *--at = '-';
  return string(at, digits + sizeof digits);
}

static string written(long long number) { return written(number < 0 ? 0 - (unsigned long long)number : number, number < 0); }

string to_string(int number) { return written((long long)number); }
string to_string(long number) { return written((long long)number); }
string to_string(long long number) { return written(number); }
string to_string(unsigned number) { return written(number, false); }
string to_string(unsigned long number) { return written(number, false); }
string to_string(unsigned long long number) { return written(number, false); }

// A number that begins a text. Where none does, or it is out of range, the program ends.
template <class Number, class Read> static Number read(const string &text, size_t *count, int base, Read read) {
  char *end;
  errno = 0;
  auto number = read(text.c_str(), &end, base);
  if (end == text.c_str() || errno == ERANGE || (Number)number != number) abort();
  if (count) *count = end - text.c_str();
  return (Number)number;
}

int stoi(const string &text, size_t *count, int base) { return read<int>(text, count, base, strtol); }
long stol(const string &text, size_t *count, int base) { return read<long>(text, count, base, strtol); }
long long stoll(const string &text, size_t *count, int base) { return read<long long>(text, count, base, strtoll); }
unsigned long stoul(const string &text, size_t *count, int base) { return read<unsigned long>(text, count, base, strtoul); }
unsigned long long stoull(const string &text, size_t *count, int base) { return read<unsigned long long>(text, count, base, strtoull); }

// ---- shared pointers

__shared_count::~__shared_count() {}
__shared_weak_count::~__shared_weak_count() {}
const void *__shared_weak_count::__get_deleter(const type_info &) const noexcept { return nullptr; }

void __shared_weak_count::__release_weak() noexcept {
  if (__shared_weak_owners_-- == 0) __on_zero_shared_weak();
}

__shared_weak_count *__shared_weak_count::lock() noexcept {
  if (use_count() == 0) return nullptr;
  __add_shared();
  return this;
}

// ---- std::sort of numbers

#if _LIBCPP_VERSION < 15000
#define SORT(number) \
  template void __sort<__less<number> &, number *>(number *, number *, __less<number> &); \
  template bool __insertion_sort_incomplete<__less<number> &, number *>(number *, number *, __less<number> &);
#elif _LIBCPP_VERSION >= 190000
template <class Less, class Place> void __sort(Place first, Place last, Less) {
  std::sort(first, last, [](auto one, auto other) { return one < other; });
}
#define SORT(number) template void __sort<__less<number> &, number *>(number *, number *, __less<number> &);
#else
#define SORT(number)
#endif
SORT(char)
SORT(signed char)
SORT(unsigned char)
SORT(short)
SORT(unsigned short)
SORT(int)
SORT(unsigned)
SORT(long)
SORT(unsigned long)
SORT(long long)
SORT(unsigned long long)

// Called where an exception would be thrown.
#if _LIBCPP_VERSION >= 200000
[[noreturn]] void __libcpp_verbose_abort(const char *, ...) noexcept { abort(); }
#elif _LIBCPP_VERSION >= 15000
[[noreturn]] void __libcpp_verbose_abort(const char *, ...) { abort(); }
#endif

_LIBCPP_END_NAMESPACE_STD
