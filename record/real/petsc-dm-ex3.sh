title='PETSc tutorials: dm ex3'
packages='libpetsc3.18-dev-examples petsc-dev'
prepare() { petsc dm/tutorials/ex3.c; }
