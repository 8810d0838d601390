title='PETSc tutorials: ksp ex15'
packages='libpetsc3.18-dev-examples petsc-dev'
prepare() { petsc ksp/ksp/tutorials/ex15.c; }
