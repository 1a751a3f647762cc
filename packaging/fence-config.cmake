# find_package(fence) gives the target fence::fence. Paths are taken from where this file stands, so the tree may be moved.
if(CMAKE_SYSTEM_PROCESSOR AND NOT CMAKE_SYSTEM_PROCESSOR MATCHES "^(x86_64|AMD64|amd64)$")
    set(fence_FOUND FALSE)
    set(fence_NOT_FOUND_MESSAGE "libfence.a is x86-64 code; the target is ${CMAKE_SYSTEM_PROCESSOR}")
    return()
endif()

get_filename_component(_fence_prefix "${CMAKE_CURRENT_LIST_DIR}/../../.." ABSOLUTE)
if(NOT TARGET fence::fence)
    add_library(fence::fence STATIC IMPORTED)
    set_target_properties(fence::fence PROPERTIES
        IMPORTED_LOCATION "${_fence_prefix}/lib/libfence.a"
        INTERFACE_INCLUDE_DIRECTORIES "${_fence_prefix}/include")
endif()
unset(_fence_prefix)
