# For CMake (tried with 3.25): finds the static library libvdb.a and its header vdb.h, and makes a target of them.
#
#     find_package(Wuraiko REQUIRED)
#     target_link_libraries(program PRIVATE Wuraiko::vdb)
#
# `packaging/install PREFIX` copies this file to PREFIX/lib/cmake/Wuraiko/WuraikoConfig.cmake, where -DCMAKE_PREFIX_PATH=PREFIX lets CMake find it. Without
# an installation, CMAKE_MODULE_PATH names the folder of this file in the repository, and the library is the one that packaging/library writes.
# Another place is told by -DWuraiko_LIBRARY=.. and -DWuraiko_INCLUDE_DIR=..; the library is for x86-64 only.

# Above this file: the repository, or PREFIX.
set(_wuraiko_above "${CMAKE_CURRENT_LIST_DIR}/.." "${CMAKE_CURRENT_LIST_DIR}/../../..")
find_library(Wuraiko_LIBRARY NAMES libvdb.a HINTS ${_wuraiko_above} PATH_SUFFIXES lib target/staticlib)
find_path(Wuraiko_INCLUDE_DIR NAMES vdb.h HINTS ${_wuraiko_above} PATH_SUFFIXES include/wuraiko include)
unset(_wuraiko_above)

include(FindPackageHandleStandardArgs)
find_package_handle_standard_args(Wuraiko REQUIRED_VARS Wuraiko_LIBRARY Wuraiko_INCLUDE_DIR)
mark_as_advanced(Wuraiko_LIBRARY Wuraiko_INCLUDE_DIR)

if(Wuraiko_FOUND AND NOT TARGET Wuraiko::vdb)
  add_library(Wuraiko::vdb STATIC IMPORTED)
  set_target_properties(Wuraiko::vdb PROPERTIES
    IMPORTED_LOCATION "${Wuraiko_LIBRARY}"
    IMPORTED_LINK_INTERFACE_LANGUAGES C
    INTERFACE_INCLUDE_DIRECTORIES "${Wuraiko_INCLUDE_DIR}")
endif()
