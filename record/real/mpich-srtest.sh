title='MPICH examples: srtest'
packages='mpich mpich-doc'
mpi=mpich
prepare() { mpich_example srtest.c; }
