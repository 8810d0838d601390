title='PETSc tutorials: dm ex2'
packages='libpetsc3.18-dev-examples petsc-dev'
prepare() { petsc dm/tutorials/ex2.c; }
