title='MPICH examples: fpi'
packages='mpich mpich-doc gfortran'
mpi=mpich
prepare() { mpich_example f77/fpi.f; }
input='100\n0\n'
