title='PETSc tutorials: vec ex1'
packages='libpetsc3.18-dev-examples petsc-dev'
prepare() { petsc vec/vec/tutorials/ex1.c; }
