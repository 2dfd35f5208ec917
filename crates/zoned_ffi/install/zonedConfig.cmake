# find_package(zoned) defines two targets: zoned::zoned, the shared library, and zoned::static.
get_filename_component(zoned_PREFIX "${CMAKE_CURRENT_LIST_DIR}/@UP@" ABSOLUTE)
if(NOT TARGET zoned::zoned)
  add_library(zoned::zoned SHARED IMPORTED)
  set_target_properties(zoned::zoned PROPERTIES
    IMPORTED_LOCATION "@LIBDIR@/libzoned.so.@VERSION@"
    IMPORTED_SONAME "libzoned.so.@ABI@"
    INTERFACE_INCLUDE_DIRECTORIES "@INCLUDEDIR@")
  add_library(zoned::static STATIC IMPORTED)
  set_target_properties(zoned::static PROPERTIES
    IMPORTED_LOCATION "@LIBDIR@/libzoned.a"
    INTERFACE_INCLUDE_DIRECTORIES "@INCLUDEDIR@")
endif()
unset(zoned_PREFIX)
