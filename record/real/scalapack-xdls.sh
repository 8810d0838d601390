title='ScaLAPACK tests: xdls'
packages='scalapack-mpi-test scalapack-test-common'
options='--free-tests'
prepare() { scalapack xdls LS.dat; }
