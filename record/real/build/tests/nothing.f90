use mpi_f08
end
