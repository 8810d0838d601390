title='MPICH examples: cpi'
packages='mpich mpich-doc'
mpi=mpich
prepare() { mpich_example cpi.c; }
