title='PETSc tutorials: snes ex28'
packages='libpetsc3.18-dev-examples petsc-dev'
prepare() { petsc snes/tutorials/ex28.c; }
