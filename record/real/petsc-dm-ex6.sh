title='PETSc tutorials: dm ex6'
packages='libpetsc3.18-dev-examples petsc-dev'
prepare() { petsc dm/tutorials/ex6.c; }
