// The types of classes at run time, by the Itanium C++ ABI (2.9): what dynamic_cast and typeid call. Part of libcxx.so.

#include <stddef.h>

namespace std {

class type_info {
public:
  virtual ~type_info();
  const char *text;
};

type_info::~type_info() {}

} // namespace std

namespace __cxxabiv1 {

struct __class_type_info;

// The search that a cast makes among all objects of an object's classes.
struct Search {
  const __class_type_info *from, *to;
  const char *object;
  // the object of class `to` that the search is inside of, and whether all bases on the way from it are public
  const char *inside = nullptr;
  bool inside_is_public = false;
  // of the objects of class `to` that `object` is a base of: the first, whether there is another, whether a way to `object` is public
  const char *derived = nullptr;
  bool many_derived = false, derived_is_public = false;
  // of all objects of class `to`: the same, with the way from the whole object
  const char *other = nullptr;
  bool many_others = false, other_is_public = false;
  // whether `object` is a public base of the whole object
  bool object_is_public = false;

  void enter(const char *at, bool is_public);
  void reach(bool is_public);
};

// A type that no search goes into.
struct __fundamental_type_info : std::type_info {
  ~__fundamental_type_info();
};
struct __array_type_info : std::type_info {
  ~__array_type_info();
};
struct __function_type_info : std::type_info {
  ~__function_type_info();
};
struct __enum_type_info : std::type_info {
  ~__enum_type_info();
};
struct __pbase_type_info : std::type_info {
  unsigned flags;
  const std::type_info *pointee;
  ~__pbase_type_info();
};
struct __pointer_type_info : __pbase_type_info {
  ~__pointer_type_info();
};
struct __pointer_to_member_type_info : __pbase_type_info {
  const __class_type_info *context;
  ~__pointer_to_member_type_info();
};

// A class without bases, with one that is public and lies at its beginning, and with any.
struct __class_type_info : std::type_info {
  ~__class_type_info();
  void visit(Search &search, const char *at, bool is_public) const;
  virtual void visit_bases(Search &search, const char *at, bool is_public) const;
};
struct __si_class_type_info : __class_type_info {
  const __class_type_info *base;
  ~__si_class_type_info();
  void visit_bases(Search &search, const char *at, bool is_public) const override;
};
struct __base_class_type_info {
  const __class_type_info *base;
  long offset_flags;
};
struct __vmi_class_type_info : __class_type_info {
  unsigned flags, count;
  __base_class_type_info bases[1];
  ~__vmi_class_type_info();
  void visit_bases(Search &search, const char *at, bool is_public) const override;
};

__fundamental_type_info::~__fundamental_type_info() {}
__array_type_info::~__array_type_info() {}
__function_type_info::~__function_type_info() {}
__enum_type_info::~__enum_type_info() {}
__pbase_type_info::~__pbase_type_info() {}
__pointer_type_info::~__pointer_type_info() {}
__pointer_to_member_type_info::~__pointer_to_member_type_info() {}
__class_type_info::~__class_type_info() {}
__si_class_type_info::~__si_class_type_info() {}
__vmi_class_type_info::~__vmi_class_type_info() {}

// Whether a name has a part of an anonymous namespace: such a class is that of one file, and others may have the same name.
static bool is_of_one_file(const char *text) {
  const char *mark = "_GLOBAL__N_";
  for (; *text; text++) {
    size_t same = 0;
    while (mark[same] && text[same] == mark[same]) same++;
    if (!mark[same]) return true;
  }
  return false;
}

// Libraries that are opened later have records of their own for a class. They are of one class where the names are the same.
static bool are_same(const std::type_info *one, const std::type_info *other) {
  if (one == other || one->text == other->text) return true;
  const char *a = one->text, *b = other->text;
  while (*a && *a == *b) a++, b++;
  return *a == *b && !is_of_one_file(one->text);
}

// An object of the class that is looked for. With virtual bases the search may come to one again.
void Search::enter(const char *at, bool is_public) {
  if (other && other != at) many_others = true;
  if (!other) other = at;
  if (is_public) other_is_public = true;
}

// The object that is cast, by some way from the whole object.
void Search::reach(bool is_public) {
  if (is_public) object_is_public = true;
  if (!inside) return;
  if (derived && derived != inside) many_derived = true;
  if (!derived) derived = inside;
  if (inside_is_public) derived_is_public = true;
}

void __class_type_info::visit(Search &search, const char *at, bool is_public) const {
  if (at == search.object && are_same(this, search.from)) search.reach(is_public);
  if (!are_same(this, search.to)) return visit_bases(search, at, is_public);
  // No class is a base of itself.
  search.enter(at, is_public);
  search.inside = at;
  search.inside_is_public = true;
  visit_bases(search, at, is_public);
  search.inside = nullptr;
}

void __class_type_info::visit_bases(Search &, const char *, bool) const {}

void __si_class_type_info::visit_bases(Search &search, const char *at, bool is_public) const {
  base->visit(search, at, is_public);
}

void __vmi_class_type_info::visit_bases(Search &search, const char *at, bool is_public) const {
  for (unsigned n = 0; n < count; n++) {
    bool is_virtual = bases[n].offset_flags & 1, base_is_public = bases[n].offset_flags & 2;
    long offset = bases[n].offset_flags >> 8;
    // That of a virtual base stands in the table of virtual functions.
    if (is_virtual) offset = *(const long *)(*(const char *const *)at + offset);
    bool before = search.inside_is_public;
    search.inside_is_public = before && base_is_public;
    bases[n].base->visit(search, at + offset, is_public && base_is_public);
    search.inside_is_public = before;
  }
}

// C++17, 8.2.7: the one object of the class that the object is a public base of; else, where the object is a public base of the whole,
// the whole's one public base of the class; else none.
extern "C" void *__dynamic_cast(const void *object, const __class_type_info *from, const __class_type_info *to, ptrdiff_t) {
  const long *table = *(const long *const *)object;
  const char *whole = (const char *)object + table[-2];
  Search search{from, to, (const char *)object};
  ((const __class_type_info *)table[-1])->visit(search, whole, true);
  if (search.derived && !search.many_derived && search.derived_is_public) return (void *)search.derived;
  bool is_found = search.object_is_public && search.other && !search.many_others && search.other_is_public;
  return is_found ? (void *)search.other : nullptr;
}

// There are no exceptions: a reference that can't be cast, and typeid of a null pointer, end the program.
extern "C" void __cxa_bad_cast() { __builtin_trap(); }
extern "C" void __cxa_bad_typeid() { __builtin_trap(); }

} // namespace __cxxabiv1
