title='MPICH examples: hellow'
packages='mpich mpich-doc'
mpi=mpich
prepare() { mpich_example hellow.c; }
