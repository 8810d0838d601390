title='PETSc tutorials: ksp ex45'
packages='libpetsc3.18-dev-examples petsc-dev'
words='-da_grid_x 5 -da_grid_y 5 -da_grid_z 5'
prepare() { petsc ksp/ksp/tutorials/ex45.c; }
