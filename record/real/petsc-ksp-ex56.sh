title='PETSc tutorials: ksp ex56'
packages='libpetsc3.18-dev-examples petsc-dev'
ranks=8
words='-ne 3'
prepare() { petsc ksp/ksp/tutorials/ex56.c; }
