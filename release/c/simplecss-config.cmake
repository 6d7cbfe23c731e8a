# The libraries simplecss::simplecss, which is shared, and simplecss::static.
get_filename_component(simplecss_lib "${CMAKE_CURRENT_LIST_DIR}/../.." ABSOLUTE)
get_filename_component(simplecss_include "${CMAKE_CURRENT_LIST_DIR}/@INCLUDE@" ABSOLUTE)
if(NOT TARGET simplecss::simplecss)
  add_library(simplecss::simplecss SHARED IMPORTED)
  set_target_properties(simplecss::simplecss PROPERTIES
    IMPORTED_LOCATION "${simplecss_lib}/@SONAME@"
    IMPORTED_SONAME "@SONAME@"
    INTERFACE_INCLUDE_DIRECTORIES "${simplecss_include}")
  add_library(simplecss::static STATIC IMPORTED)
  set_target_properties(simplecss::static PROPERTIES
    IMPORTED_LOCATION "${simplecss_lib}/libsimplecss.a"
    INTERFACE_INCLUDE_DIRECTORIES "${simplecss_include}")
endif()
