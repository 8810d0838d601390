title='ScaLAPACK tests: xdqr'
packages='scalapack-mpi-test scalapack-test-common'
options='--free-tests --calls 4000'
prepare() { scalapack xdqr QR.dat; }
