# The targets vast::vast, which is the shared library, and vast::vast_static.
get_filename_component(vast_prefix "${CMAKE_CURRENT_LIST_DIR}/../../.." ABSOLUTE)

if(NOT TARGET vast::vast)
  add_library(vast::vast SHARED IMPORTED)
  set_target_properties(vast::vast PROPERTIES
    IMPORTED_LOCATION "${vast_prefix}/lib/libvast.so.0"
    IMPORTED_SONAME libvast.so.0
    INTERFACE_INCLUDE_DIRECTORIES "${vast_prefix}/include")
  add_library(vast::vast_static STATIC IMPORTED)
  set_target_properties(vast::vast_static PROPERTIES
    IMPORTED_LOCATION "${vast_prefix}/lib/libvast.a"
    INTERFACE_INCLUDE_DIRECTORIES "${vast_prefix}/include")
endif()
