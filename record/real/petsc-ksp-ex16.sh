title='PETSc tutorials: ksp ex16'
packages='libpetsc3.18-dev-examples petsc-dev'
prepare() { petsc ksp/ksp/tutorials/ex16.c; }
