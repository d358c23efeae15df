# The package `kpn` of CMake.
#
#   find_package(kpn REQUIRED)
#   kpn_add_network(NAME FILE [OPTION]..)
#   target_link_libraries(PROGRAM NAME)
#
# compiles the network of a description by `kpn compile --library --prefix NAME`, with more options as `--fixed 8`, to
# the library NAME. A program that links with it includes NAME.h, and calls NAME_open, NAME_feed and so on. The library
# kpn::kpn, if it is there, has the proved sessions of kpn.h.
get_filename_component(_kpn_prefix "${CMAKE_CURRENT_LIST_DIR}/../../.." ABSOLUTE)
set(KPN_PROGRAM "${_kpn_prefix}/bin/kpn")
set(KPN_INCLUDE_DIR "${_kpn_prefix}/include")
if(EXISTS "${_kpn_prefix}/lib/libkpn.a" AND NOT TARGET kpn::kpn)
  add_library(kpn::kpn STATIC IMPORTED)
  set_target_properties(kpn::kpn PROPERTIES IMPORTED_LOCATION "${_kpn_prefix}/lib/libkpn.a"
                        INTERFACE_INCLUDE_DIRECTORIES "${KPN_INCLUDE_DIR}")
endif()

function(kpn_add_network name file)
  get_filename_component(file "${file}" ABSOLUTE)
  set(folder "${CMAKE_CURRENT_BINARY_DIR}/${name}.kpn")
  set(object "${folder}/${name}.o")
  file(MAKE_DIRECTORY "${folder}")
  add_custom_command(
    OUTPUT "${object}" "${folder}/${name}.h"
    COMMAND "${CMAKE_COMMAND}" -E env "CC=${CMAKE_C_COMPILER}" "CFLAGS=-std=c11 -O2 ${CMAKE_C_FLAGS}"
            "${KPN_PROGRAM}" compile "${file}" --library --prefix "${name}" -o "${object}" ${ARGN}
    DEPENDS "${file}" "${KPN_PROGRAM}"
    COMMENT "Compiling the network ${name}"
    VERBATIM)
  set_source_files_properties("${object}" PROPERTIES EXTERNAL_OBJECT TRUE GENERATED TRUE)
  add_library("${name}" STATIC "${object}" "${folder}/${name}.h")
  set_target_properties("${name}" PROPERTIES LINKER_LANGUAGE C)
  target_include_directories("${name}" PUBLIC "${folder}" "${KPN_INCLUDE_DIR}")
endfunction()
