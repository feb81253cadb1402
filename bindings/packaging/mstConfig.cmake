# find_package(mst) gives the targets mst::store and mst::verifier, shared libraries, and
# mst::store_static and mst::verifier_static.
get_filename_component(_mst_libdir "${CMAKE_CURRENT_LIST_DIR}/@LIBDIR_FROM_HERE@" ABSOLUTE)
get_filename_component(_mst_include "${CMAKE_CURRENT_LIST_DIR}/@INCLUDEDIR_FROM_HERE@" ABSOLUTE)
foreach(_mst_it store verifier)
  if(NOT TARGET mst::${_mst_it})
    add_library(mst::${_mst_it} SHARED IMPORTED)
    set_target_properties(mst::${_mst_it} PROPERTIES
      IMPORTED_LOCATION "${_mst_libdir}/libmst_${_mst_it}.so.@VERSION@"
      IMPORTED_SONAME "libmst_${_mst_it}.so.@ABI@"
      INTERFACE_INCLUDE_DIRECTORIES "${_mst_include}")
    add_library(mst::${_mst_it}_static STATIC IMPORTED)
    set_target_properties(mst::${_mst_it}_static PROPERTIES
      IMPORTED_LOCATION "${_mst_libdir}/libmst_${_mst_it}.a"
      INTERFACE_INCLUDE_DIRECTORIES "${_mst_include}")
  endif()
endforeach()
unset(_mst_libdir)
unset(_mst_include)
unset(_mst_it)
