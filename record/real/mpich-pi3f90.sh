title='MPICH examples: pi3f90'
packages='mpich mpich-doc gfortran'
mpi=mpich
prepare() { mpich_example f90/pi3f90.f90; }
input='100\n0\n'
