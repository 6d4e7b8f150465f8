# A toolchain file of CMake: its shared libraries become libraries of a set, its programs main modules, by wdyl-cc and wdyl-c++.
#
#     cmake -DCMAKE_TOOLCHAIN_FILE=$share/wdyl.cmake -B build
#
# The variables of wdyl-cc (CLANG, WASM_LD, WDYL_LIBC) are looked at by each command, so they stay set while the project is built.
# Programs are run by `wdyl run`, in tests and where a project tries one.

# CMake knows no system of this kind; what is so of it stands in wdyl_rules.cmake
set(CMAKE_SYSTEM_NAME Generic)
set(CMAKE_SYSTEM_PROCESSOR wasm32)
set(CMAKE_USER_MAKE_RULES_OVERRIDE ${CMAKE_CURRENT_LIST_DIR}/wdyl_rules.cmake)

# beside share/ as it is installed, or in the checkout
set(places ${CMAKE_CURRENT_LIST_DIR}/../../bin ${CMAKE_CURRENT_LIST_DIR}/../../tools)
find_program(WDYL_CC wdyl-cc HINTS ${places} REQUIRED)
find_program(WDYL_CXX wdyl-c++ HINTS ${places} REQUIRED)
find_program(WDYL wdyl HINTS ${places})
set(CMAKE_C_COMPILER ${WDYL_CC})
set(CMAKE_CXX_COMPILER ${WDYL_CXX})
if(WDYL)
  if(DEFINED ENV{WDYL_LIBC})
    set(CMAKE_CROSSCOMPILING_EMULATOR ${WDYL} run --path $ENV{WDYL_LIBC})
  else()
    set(CMAKE_CROSSCOMPILING_EMULATOR ${WDYL} run)
  endif()
endif()

set(CMAKE_FIND_ROOT_PATH_MODE_PROGRAM NEVER)
set(CMAKE_FIND_ROOT_PATH_MODE_LIBRARY ONLY)
set(CMAKE_FIND_ROOT_PATH_MODE_INCLUDE ONLY)
set(CMAKE_FIND_ROOT_PATH_MODE_PACKAGE ONLY)
