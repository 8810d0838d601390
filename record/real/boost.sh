title='Boost.MPI: wait_all, gather, all_to_all of strings'
packages='libboost-mpi-dev libboost-serialization-dev'
options='--free-tests'
prepare() { mpicxx.openmpi -g -w -o program ../../../real/boost.cpp -lboost_mpi -lboost_serialization; }
