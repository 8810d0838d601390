title='FFTW: the same, measured'
packages='libfftw3-mpi-dev'
prepare() { mpicc.openmpi -g -w -DPLAN=FFTW_MEASURE -o program ../../../real/fftw.c -lfftw3_mpi -lfftw3 -lm; }
