title='ScaLAPACK tests: xdtrd'
packages='scalapack-mpi-test scalapack-test-common'
options='--free-tests --calls 4000'
prepare() { scalapack xdtrd TRD.dat; }
