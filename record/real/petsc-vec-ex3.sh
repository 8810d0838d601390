title='PETSc tutorials: vec ex3'
packages='libpetsc3.18-dev-examples petsc-dev'
prepare() { petsc vec/vec/tutorials/ex3.c; }
