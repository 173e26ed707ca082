# SPDX-License-Identifier: MIT
# find_package(phkarotuk) gives phkarotuk::static, and phkarotuk::shared where `lib/build --shared` wrote the shared library.
if(NOT TARGET phkarotuk::static)
    add_library(phkarotuk::static STATIC IMPORTED)
    set_target_properties(phkarotuk::static PROPERTIES
        IMPORTED_LOCATION "${CMAKE_CURRENT_LIST_DIR}/libphkarotuk.a"
        INTERFACE_INCLUDE_DIRECTORIES "${CMAKE_CURRENT_LIST_DIR}")
endif()
if(NOT TARGET phkarotuk::shared AND EXISTS "${CMAKE_CURRENT_LIST_DIR}/libphkarotuk.so")
    add_library(phkarotuk::shared SHARED IMPORTED)
    set_target_properties(phkarotuk::shared PROPERTIES
        IMPORTED_LOCATION "${CMAKE_CURRENT_LIST_DIR}/libphkarotuk.so"
        IMPORTED_SONAME libphkarotuk.so.1
        INTERFACE_INCLUDE_DIRECTORIES "${CMAKE_CURRENT_LIST_DIR}")
endif()
