title='PETSc tutorials: ksp ex2'
packages='libpetsc3.18-dev-examples petsc-dev'
words='-m 8 -n 7'
prepare() { petsc ksp/ksp/tutorials/ex2.c; }
