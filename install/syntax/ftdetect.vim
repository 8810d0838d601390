autocmd BufNewFile,BufRead *.mpi,*.spmd setfiletype mpiprove
