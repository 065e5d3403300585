# The engine of behavior trees, for programs in C and C++: find_package(bt), and link with bt::bt.
if(NOT TARGET bt::bt)
  get_filename_component(bt_libraries "${CMAKE_CURRENT_LIST_DIR}/../.." ABSOLUTE)
  find_path(bt_INCLUDE_DIR bt.h PATHS "${bt_libraries}/../include" "${bt_libraries}/../../include" NO_DEFAULT_PATH REQUIRED)
  add_library(bt::bt STATIC IMPORTED)
  set_target_properties(bt::bt PROPERTIES
    IMPORTED_LOCATION "${bt_libraries}/libbt.a"
    INTERFACE_INCLUDE_DIRECTORIES "${bt_INCLUDE_DIR}"
    INTERFACE_LINK_LIBRARIES -pthread)
endif()
