title='PETSc tutorials: vec ex2'
packages='libpetsc3.18-dev-examples petsc-dev'
prepare() { petsc vec/vec/tutorials/ex2.c; }
