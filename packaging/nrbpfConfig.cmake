# find_package(nrbpf 2 REQUIRED), then target_link_libraries(host nrbpf::nrbpf), or nrbpf::static for libnrbpf.a.
# Paths are relative to this file, so what is installed may be moved as a whole.
get_filename_component(_nrbpf_lib "${CMAKE_CURRENT_LIST_DIR}/../.." ABSOLUTE)
get_filename_component(_nrbpf_include "${_nrbpf_lib}/@include@" ABSOLUTE)
include(CMakeFindDependencyMacro)
find_dependency(Threads)
if(NOT TARGET nrbpf::nrbpf)
    add_library(nrbpf::nrbpf SHARED IMPORTED)
    set_target_properties(nrbpf::nrbpf PROPERTIES
        IMPORTED_LOCATION "${_nrbpf_lib}/libnrbpf.so.@version@"
        IMPORTED_SONAME "libnrbpf.so.@major@"
        INTERFACE_INCLUDE_DIRECTORIES "${_nrbpf_include}"
        INTERFACE_LINK_LIBRARIES Threads::Threads)
endif()
if(NOT TARGET nrbpf::static)
    add_library(nrbpf::static STATIC IMPORTED)
    set_target_properties(nrbpf::static PROPERTIES
        IMPORTED_LOCATION "${_nrbpf_lib}/libnrbpf.a"
        INTERFACE_INCLUDE_DIRECTORIES "${_nrbpf_include}"
        INTERFACE_LINK_LIBRARIES Threads::Threads)
endif()
