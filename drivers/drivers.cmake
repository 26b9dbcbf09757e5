# drivers.cmake: include(path/to/drivers/drivers.cmake), then add_driver_test(NAME file.c ..) adds two tests to ctest.
set(DRIVERS_RUN ${CMAKE_CURRENT_LIST_DIR}/run)
function(add_driver_test name)
  list(TRANSFORM ARGN PREPEND ${CMAKE_CURRENT_SOURCE_DIR}/ OUTPUT_VARIABLE sources)
  add_test(NAME ${name} COMMAND ${DRIVERS_RUN} ${sources})
  add_test(NAME ${name}_threads COMMAND ${DRIVERS_RUN} --threads 4 --seeds 1..8 ${sources})
endfunction()
