/* Communicators that are made later, that are merged, and that have a name of the program's. */
#include <mpi.h>

int main(int argc, char **argv) {
    int rank, size, value = 1, others[2] = {0, 0}, sizes[1], periods[1] = {0};
    MPI_Comm ring, later, half, bridge, all;
    MPI_Request request;
    MPI_Init(&argc, &argv);
    MPI_Comm_rank(MPI_COMM_WORLD, &rank);
    MPI_Comm_size(MPI_COMM_WORLD, &size);
    sizes[0] = size;
    MPI_Cart_create(MPI_COMM_WORLD, 1, sizes, periods, 0, &ring);
    MPI_Comm_idup(ring, &later, &request);
    MPI_Wait(&request, MPI_STATUS_IGNORE);
    MPI_Comm_set_name(ring, "ring of ranks");
    MPI_Neighbor_allgather(&value, 1, MPI_INT, others, 1, MPI_INT, ring);
    MPI_Comm_split(MPI_COMM_WORLD, rank % 2, rank, &half);
    MPI_Allreduce(&value, others, 1, MPI_INT, MPI_SUM, half);
    if (rank == 0) MPI_Ssend(&value, 1, MPI_INT, 1, 1, later);
    if (rank == 1) MPI_Recv(&value, 1, MPI_INT, 0, 1, later, MPI_STATUS_IGNORE);
    if (argc > 1) {
        MPI_Intercomm_create(half, 0, MPI_COMM_WORLD, !(rank % 2), 1, &bridge);
        MPI_Intercomm_merge(bridge, rank % 2, &all);
        MPI_Comm_dup(all, &later);
        MPI_Barrier(later);
    }
    MPI_Finalize();
    return 0;
}
