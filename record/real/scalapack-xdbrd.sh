title='ScaLAPACK tests: xdbrd'
packages='scalapack-mpi-test scalapack-test-common'
options='--free-tests --calls 4000'
prepare() { scalapack xdbrd BRD.dat; }
