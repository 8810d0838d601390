title='ScaLAPACK tests: xdsep'
packages='scalapack-mpi-test scalapack-test-common'
options='--free-tests --calls 4000'
prepare() { scalapack xdsep SEP.dat; }
