# find_package(usi) gives two targets: usi::usi, which is loaded, and usi::static, which is linked in.
get_filename_component(_usi_prefix "${CMAKE_CURRENT_LIST_DIR}/../../.." ABSOLUTE)
foreach(_usi_target usi static)
  if(NOT TARGET usi::${_usi_target})
    if(_usi_target STREQUAL static)
      add_library(usi::static STATIC IMPORTED)
      set(_usi_file libusi.a)
    else()
      add_library(usi::usi SHARED IMPORTED)
      set(_usi_file libusi.so)
      set_target_properties(usi::usi PROPERTIES IMPORTED_SONAME libusi.so.0)
    endif()
    set_target_properties(usi::${_usi_target} PROPERTIES
      IMPORTED_LOCATION "${_usi_prefix}/lib/${_usi_file}"
      IMPORTED_LINK_INTERFACE_LANGUAGES C
      INTERFACE_INCLUDE_DIRECTORIES "${_usi_prefix}/include")
  endif()
endforeach()
unset(_usi_file)
unset(_usi_prefix)
unset(_usi_target)
