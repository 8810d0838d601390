title='ScaLAPACK tests: xdsyevr'
packages='scalapack-mpi-test scalapack-test-common'
options='--free-tests --calls 4000'
prepare() { scalapack xdsyevr SEPR.dat; }
