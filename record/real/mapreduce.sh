title='MapReduce-MPI: words counted'
packages='libmrmpi-dev'
prepare() { mpicxx.openmpi -g -w -I/usr/include/mrmpi -o program ../../../real/mapreduce.cpp -lMapReduceMPI; }
