# find_package(Rutlark) gives the target rutlark::rutlark: the static library and its header.
get_filename_component(_rutlark_prefix "${CMAKE_CURRENT_LIST_DIR}/../../.." ABSOLUTE)
if(NOT TARGET rutlark::rutlark)
  add_library(rutlark::rutlark STATIC IMPORTED)
  set_target_properties(rutlark::rutlark PROPERTIES
    IMPORTED_LOCATION "${_rutlark_prefix}/lib/librutlark.a"
    IMPORTED_LINK_INTERFACE_LANGUAGES C
    INTERFACE_INCLUDE_DIRECTORIES "${_rutlark_prefix}/include")
endif()
unset(_rutlark_prefix)
