title='PETSc tutorials: ksp ex12'
packages='libpetsc3.18-dev-examples petsc-dev'
prepare() { petsc ksp/ksp/tutorials/ex12.c; }
