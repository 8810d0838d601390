title='PETSc tutorials: mat ex2'
packages='libpetsc3.18-dev-examples petsc-dev'
prepare() { petsc mat/tutorials/ex2.c; }
