title='ScaLAPACK tests: xdinv'
packages='scalapack-mpi-test scalapack-test-common'
options='--free-tests --calls 4000'
prepare() { scalapack xdinv INV.dat; }
