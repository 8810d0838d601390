title='PETSc tutorials: ksp ex23'
packages='libpetsc3.18-dev-examples petsc-dev'
prepare() { petsc ksp/ksp/tutorials/ex23.c; }
