# vervainfile-config.cmake: what find_package(vervainfile) gives.
#
#   vervainfile::vervainfile    the shared library
#   vervainfile::static         the archive
#   vervainfile::acorn          the calls with Acorn's names, compiled with the program that links it; over the archive

get_filename_component(_vervainfile_prefix "${CMAKE_CURRENT_LIST_DIR}/../../.." ABSOLUTE)

if(NOT TARGET vervainfile::vervainfile)
  add_library(vervainfile::vervainfile SHARED IMPORTED)
  set_target_properties(vervainfile::vervainfile PROPERTIES
    IMPORTED_LOCATION "${_vervainfile_prefix}/lib/libvervainfile.so.1"
    IMPORTED_SONAME "libvervainfile.so.1"
    INTERFACE_INCLUDE_DIRECTORIES "${_vervainfile_prefix}/include")

  add_library(vervainfile::static STATIC IMPORTED)
  set_target_properties(vervainfile::static PROPERTIES
    IMPORTED_LOCATION "${_vervainfile_prefix}/lib/libvervainfile.a"
    INTERFACE_INCLUDE_DIRECTORIES "${_vervainfile_prefix}/include")

  set(_vervainfile_acorn "${_vervainfile_prefix}/share/vervainfile/acorn")
  file(GLOB _vervainfile_shims "${_vervainfile_acorn}/*.c")
  add_library(vervainfile::acorn INTERFACE IMPORTED)
  set_target_properties(vervainfile::acorn PROPERTIES
    INTERFACE_SOURCES "${_vervainfile_shims}"
    INTERFACE_INCLUDE_DIRECTORIES "${_vervainfile_acorn}"
    INTERFACE_LINK_LIBRARIES vervainfile::static)
  unset(_vervainfile_acorn)
  unset(_vervainfile_shims)
endif()
unset(_vervainfile_prefix)
