title='FFTW: 12 by 10, a transform and a transpose'
packages='libfftw3-mpi-dev'
prepare() { mpicc.openmpi -g -w -o program ../../../real/fftw.c -lfftw3_mpi -lfftw3 -lm; }
