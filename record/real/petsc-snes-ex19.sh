title='PETSc tutorials: snes ex19'
packages='libpetsc3.18-dev-examples petsc-dev'
words='-da_grid_x 4 -da_grid_y 4'
prepare() { petsc snes/tutorials/ex19.c; }
