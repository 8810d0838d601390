# find_package(mpiprove) gives mpiprove_add_test and the target mpiprove::mpiprove, which names the
# command. MPI has to be found before: find_package(MPI REQUIRED)
get_filename_component(mpiprove_COMMAND "${CMAKE_CURRENT_LIST_DIR}/../../../bin/mpiprove" ABSOLUTE)
if(NOT EXISTS "${mpiprove_COMMAND}")
  set(mpiprove_FOUND FALSE)
  set(mpiprove_NOT_FOUND_MESSAGE "there is no ${mpiprove_COMMAND}")
  return()
endif()
if(NOT TARGET mpiprove::mpiprove)
  add_executable(mpiprove::mpiprove IMPORTED)
  set_target_properties(mpiprove::mpiprove PROPERTIES IMPORTED_LOCATION "${mpiprove_COMMAND}")
endif()

# mpiprove_add_test(NAME name RANKS number.. COMMAND target-or-program word..
#                   [TIMEOUT seconds] [RECORD option..])
#
# A test name.number for each number of ranks: `mpiprove run` runs the program under MPI, for TIMEOUT
# seconds at most (60), and the test fails where some run of the recorded path can hang, and tells
# where. RECORD hands options to it. Texts and maps stand in the folder `mpiprove` of the binary folder.
# Each test has the label mpiprove, and counts as skipped where nothing is known (status 2).
function(mpiprove_add_test)
  cmake_parse_arguments(PARSE_ARGV 0 arg "" "NAME;TIMEOUT" "RANKS;COMMAND;RECORD")
  foreach(word NAME RANKS COMMAND)
    if(NOT arg_${word})
      message(FATAL_ERROR "mpiprove_add_test: ${word} is missing")
    endif()
  endforeach()
  if(arg_UNPARSED_ARGUMENTS)
    message(FATAL_ERROR "mpiprove_add_test: ${arg_UNPARSED_ARGUMENTS} is unknown")
  endif()
  if(NOT MPIEXEC_EXECUTABLE)
    message(FATAL_ERROR "mpiprove_add_test: find_package(MPI) has to come before")
  endif()
  if(NOT arg_TIMEOUT)
    set(arg_TIMEOUT 60)
  endif()
  list(POP_FRONT arg_COMMAND program)
  if(TARGET ${program})
    set(program $<TARGET_FILE:${program}>)
  endif()
  set(folder "${CMAKE_CURRENT_BINARY_DIR}/mpiprove")
  file(MAKE_DIRECTORY "${folder}")
  foreach(ranks IN LISTS arg_RANKS)
    set(name ${arg_NAME}.${ranks})
    add_test(NAME ${name} COMMAND mpiprove::mpiprove run --time ${arg_TIMEOUT} -o "${folder}/${name}" ${arg_RECORD}
      ${MPIEXEC_EXECUTABLE} ${MPIEXEC_PREFLAGS} ${MPIEXEC_NUMPROC_FLAG} ${ranks} ${program} ${MPIEXEC_POSTFLAGS} ${arg_COMMAND})
    set_tests_properties(${name} PROPERTIES LABELS mpiprove PROCESSORS ${ranks} SKIP_RETURN_CODE 2)
  endforeach()
endfunction()
