title='PETSc tutorials: vec ex11'
packages='libpetsc3.18-dev-examples petsc-dev'
prepare() { petsc vec/vec/tutorials/ex11.c; }
