title='PETSc tutorials: ksp ex50'
packages='libpetsc3.18-dev-examples petsc-dev'
words='-da_grid_x 4 -da_grid_y 4'
prepare() { petsc ksp/ksp/tutorials/ex50.c; }
