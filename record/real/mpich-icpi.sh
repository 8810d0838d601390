title='MPICH examples: icpi'
packages='mpich mpich-doc'
mpi=mpich
prepare() { mpich_example icpi.c; }
input='100\n0\n'
