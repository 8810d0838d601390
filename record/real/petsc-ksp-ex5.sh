title='PETSc tutorials: ksp ex5'
packages='libpetsc3.18-dev-examples petsc-dev'
prepare() { petsc ksp/ksp/tutorials/ex5.c; }
