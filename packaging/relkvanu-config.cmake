# find_package(relkvanu) gives the targets relkvanu::relkvanu, the shared library, and relkvanu::static. The durable coordinator, if it is
# installed, is relkvanu::store, the shared library, and relkvanu::store_static, which needs SQLite, zlib and threads. Each name without
# relkvanu:: is a component too: relkvanu, static, store, store_static.
if(NOT CMAKE_SYSTEM_NAME STREQUAL "Linux" OR NOT CMAKE_SYSTEM_PROCESSOR MATCHES "^(x86_64|AMD64|amd64)$" OR NOT CMAKE_SIZEOF_VOID_P EQUAL 8)
    set(relkvanu_FOUND FALSE)
    set(relkvanu_NOT_FOUND_MESSAGE "this library is for Linux on x86-64, and the target is ${CMAKE_SYSTEM_NAME} on ${CMAKE_SYSTEM_PROCESSOR}")
    return()
endif()

# The libraries are two folders above this file, and the headers in the include of a folder above them.
get_filename_component(_relkvanu_libraries "${CMAKE_CURRENT_LIST_DIR}/../.." ABSOLUTE)
set(_relkvanu_prefix "${_relkvanu_libraries}")
foreach(_relkvanu_step RANGE 3)
    if(NOT EXISTS "${_relkvanu_prefix}/include/relkvanu.h")
        get_filename_component(_relkvanu_prefix "${_relkvanu_prefix}/.." ABSOLUTE)
    endif()
endforeach()
set(_relkvanu_has_store FALSE)
if(EXISTS "${_relkvanu_libraries}/librelkvanu-store.so.0" AND EXISTS "${_relkvanu_prefix}/include/relkvanu_store.h")
    set(_relkvanu_has_store TRUE)
endif()

foreach(_relkvanu_component IN LISTS relkvanu_FIND_COMPONENTS)
    if(_relkvanu_component MATCHES "^store(_static)?$" AND NOT _relkvanu_has_store)
        set(relkvanu_${_relkvanu_component}_FOUND FALSE)
        if(relkvanu_FIND_REQUIRED_${_relkvanu_component})
            set(relkvanu_FOUND FALSE)
            set(relkvanu_NOT_FOUND_MESSAGE "the durable coordinator is not installed: there is no librelkvanu-store.so.0 with its header")
            return()
        endif()
    elseif(NOT _relkvanu_component MATCHES "^(relkvanu|static|store|store_static)$")
        set(relkvanu_${_relkvanu_component}_FOUND FALSE)
        if(relkvanu_FIND_REQUIRED_${_relkvanu_component})
            set(relkvanu_FOUND FALSE)
            set(relkvanu_NOT_FOUND_MESSAGE "there is no component ${_relkvanu_component}, only relkvanu, static, store and store_static")
            return()
        endif()
    else()
        set(relkvanu_${_relkvanu_component}_FOUND TRUE)
    endif()
endforeach()

if(NOT TARGET relkvanu::relkvanu)
    add_library(relkvanu::relkvanu SHARED IMPORTED)
    set_target_properties(relkvanu::relkvanu PROPERTIES
        IMPORTED_LOCATION "${_relkvanu_libraries}/librelkvanu.so.0"
        IMPORTED_SONAME "librelkvanu.so.0"
        INTERFACE_INCLUDE_DIRECTORIES "${_relkvanu_prefix}/include")
    add_library(relkvanu::static STATIC IMPORTED)
    set_target_properties(relkvanu::static PROPERTIES
        IMPORTED_LOCATION "${_relkvanu_libraries}/librelkvanu.a"
        INTERFACE_INCLUDE_DIRECTORIES "${_relkvanu_prefix}/include")
endif()

if(_relkvanu_has_store AND NOT TARGET relkvanu::store)
    add_library(relkvanu::store SHARED IMPORTED)
    set_target_properties(relkvanu::store PROPERTIES
        IMPORTED_LOCATION "${_relkvanu_libraries}/librelkvanu-store.so.0"
        IMPORTED_SONAME "librelkvanu-store.so.0"
        INTERFACE_INCLUDE_DIRECTORIES "${_relkvanu_prefix}/include"
        INTERFACE_LINK_LIBRARIES "relkvanu::relkvanu")
    add_library(relkvanu::store_static STATIC IMPORTED)
    set_target_properties(relkvanu::store_static PROPERTIES
        IMPORTED_LOCATION "${_relkvanu_libraries}/librelkvanu-store.a"
        INTERFACE_INCLUDE_DIRECTORIES "${_relkvanu_prefix}/include"
        INTERFACE_LINK_LIBRARIES "relkvanu::static;sqlite3;z;pthread")
endif()

unset(_relkvanu_has_store)
unset(_relkvanu_prefix)
unset(_relkvanu_libraries)
unset(_relkvanu_component)
unset(_relkvanu_step)
