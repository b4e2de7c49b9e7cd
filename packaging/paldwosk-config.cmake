# find_package(paldwosk): the target paldwosk::paldwosk is the shared library, paldwosk::static the archive.
include(CMakeFindDependencyMacro)
set(THREADS_PREFER_PTHREAD_FLAG ON)
find_dependency(Threads)
get_filename_component(_paldwosk_prefix "${CMAKE_CURRENT_LIST_DIR}/../../.." ABSOLUTE)

function(_paldwosk_add name kind file)
  if(TARGET paldwosk::${name})
    return()
  endif()
  add_library(paldwosk::${name} ${kind} IMPORTED)
  set_target_properties(paldwosk::${name} PROPERTIES
    IMPORTED_LOCATION "${_paldwosk_prefix}/lib/${file}"
    INTERFACE_INCLUDE_DIRECTORIES "${_paldwosk_prefix}/include/paldwosk"
    INTERFACE_LINK_LIBRARIES Threads::Threads)
endfunction()

_paldwosk_add(static STATIC libpaldwosk.a)
_paldwosk_add(paldwosk SHARED libpaldwosk.so)
set_target_properties(paldwosk::paldwosk PROPERTIES IMPORTED_SONAME @SONAME@)
