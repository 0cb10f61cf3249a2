# Targets for stations inside ns-3:
#
#     geostation::ns3        geostation-ns3.hpp, -range.hpp, -results.hpp and -moves.hpp
#     geostation::ns3-wifi   geostation-ns3-wifi.hpp in addition
#
# GEOSTATION_PREFIX names the folder of the station's library. NS3_PREFIX names that of ns-3.
# ns-3's own package is not used: the one of Debian needs more than libns3-dev installs.
set(GEOSTATION_PREFIX "" CACHE PATH "Folder under which c/build has put the library")
set(NS3_PREFIX "" CACHE PATH "Folder under which ns-3 is installed")

find_path(GEOSTATION_NS3_INCLUDE geostation-ns3.hpp
  HINTS ${CMAKE_CURRENT_LIST_DIR} ${CMAKE_CURRENT_LIST_DIR}/../../../include)
find_path(GEOSTATION_INCLUDE geostation.hpp
  HINTS ${GEOSTATION_PREFIX}/include ${CMAKE_CURRENT_LIST_DIR}/../../../include)
find_library(GEOSTATION_LIBRARY libgeostation.a
  HINTS ${GEOSTATION_PREFIX}/lib ${CMAKE_CURRENT_LIST_DIR}/../..)
find_path(NS3_INCLUDE ns3/core-module.h HINTS ${NS3_PREFIX}/include)

set(geostation_ns3_libraries)
foreach(module core network mobility propagation wifi wave)
  find_library(NS3_${module}_LIBRARY
    NAMES ns3-${module} ns3.37-${module}-default ns3.37-${module} HINTS ${NS3_PREFIX}/lib)
  list(APPEND geostation_ns3_libraries NS3_${module}_LIBRARY)
endforeach()
foreach(variable GEOSTATION_NS3_INCLUDE GEOSTATION_INCLUDE GEOSTATION_LIBRARY NS3_INCLUDE
    ${geostation_ns3_libraries})
  if(NOT ${variable})
    message(FATAL_ERROR "geostation-ns3: ${variable} is not found. Set GEOSTATION_PREFIX to the "
      "folder of the library, NS3_PREFIX to that of ns-3, or install libns3-dev.")
  endif()
endforeach()

if(NOT TARGET geostation::ns3)
  add_library(geostation::ns3 INTERFACE IMPORTED)
  target_compile_features(geostation::ns3 INTERFACE cxx_std_17)
  target_include_directories(geostation::ns3 INTERFACE
    ${GEOSTATION_NS3_INCLUDE} ${GEOSTATION_INCLUDE} ${NS3_INCLUDE})
  target_link_libraries(geostation::ns3 INTERFACE ${GEOSTATION_LIBRARY}
    ${NS3_mobility_LIBRARY} ${NS3_network_LIBRARY} ${NS3_core_LIBRARY})
  add_library(geostation::ns3-wifi INTERFACE IMPORTED)
  target_link_libraries(geostation::ns3-wifi INTERFACE ${NS3_wave_LIBRARY} ${NS3_wifi_LIBRARY}
    ${NS3_propagation_LIBRARY} geostation::ns3)
endif()
set(geostation-ns3_FOUND TRUE)
