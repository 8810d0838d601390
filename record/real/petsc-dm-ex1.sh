title='PETSc tutorials: dm ex1'
packages='libpetsc3.18-dev-examples petsc-dev'
prepare() { petsc dm/tutorials/ex1.c; }
