# find_package(Vurdellow) gives the target Vurdellow::vurdellow, the static library with its header.
get_filename_component(_vurdellow_prefix "${CMAKE_CURRENT_LIST_DIR}/../../.." ABSOLUTE)
if(NOT TARGET Vurdellow::vurdellow)
  add_library(Vurdellow::vurdellow STATIC IMPORTED)
  set_target_properties(Vurdellow::vurdellow PROPERTIES
    IMPORTED_LOCATION "${_vurdellow_prefix}/lib/libvurdellow.a"
    INTERFACE_INCLUDE_DIRECTORIES "${_vurdellow_prefix}/include")
endif()
unset(_vurdellow_prefix)
