/* What both.spmd says too: messages and collectives on the world, on a copy of it, and on its even and odd ranks. */
#include <mpi.h>

int main(int argc, char **argv) {
    int rank, size, one = 1, two[16], all[16];
    MPI_Comm copy, half;
    MPI_Request requests[4];
    MPI_Init(&argc, &argv);
    MPI_Comm_rank(MPI_COMM_WORLD, &rank);
    MPI_Comm_size(MPI_COMM_WORLD, &size);
    MPI_Comm_dup(MPI_COMM_WORLD, &copy);
    MPI_Group whole, part;
    int last = (size - 1 - rank % 2) / 2 * 2 + rank % 2, range[1][3] = {{rank % 2, last, 2}};
    MPI_Comm_group(MPI_COMM_WORLD, &whole);
    MPI_Group_range_incl(whole, 1, range, &part);
    MPI_Comm_create(MPI_COMM_WORLD, part, &half);
    int west = rank > 0 ? rank - 1 : MPI_PROC_NULL, east = rank < size - 1 ? rank + 1 : MPI_PROC_NULL, turn = rank > 0 ? rank - 1 : size - 1;
    for (int round = 0; round < 2; round++) {
        MPI_Irecv(two, 1, MPI_INT, west, 5, MPI_COMM_WORLD, requests);
        MPI_Irecv(two + 1, 1, MPI_INT, east, 6, copy, requests + 1);
        MPI_Isend(&one, 1, MPI_INT, west, 6, copy, requests + 2);
        MPI_Issend(&one, 1, MPI_INT, east, 5, MPI_COMM_WORLD, requests + 3);
        MPI_Waitall(4, requests, MPI_STATUSES_IGNORE);
        MPI_Allreduce(&one, two, 1, MPI_INT, MPI_SUM, MPI_COMM_WORLD);
        MPI_Bcast(&one, 1, MPI_INT, 1, half);
        MPI_Barrier(half);
    }
    MPI_Sendrecv(&one, 1, MPI_INT, (rank + 1) % size, 9, two, 1, MPI_INT, turn, 9, MPI_COMM_WORLD, MPI_STATUS_IGNORE);
    MPI_Reduce(&one, two, 1, MPI_INT, MPI_SUM, size - 1, MPI_COMM_WORLD);
    MPI_Gather(&one, 1, MPI_INT, all, 1, MPI_INT, 1, copy);
    MPI_Scan(&one, two, 1, MPI_INT, MPI_SUM, MPI_COMM_WORLD);
    MPI_Alltoall(two, 1, MPI_INT, all, 1, MPI_INT, copy);
    MPI_Scatter(two, 1, MPI_INT, all, 1, MPI_INT, 0, MPI_COMM_WORLD);
    MPI_Allgather(&one, 1, MPI_INT, all, 1, MPI_INT, half);
    if (rank) MPI_Send(&one, 1, MPI_INT, 0, 7, copy);
    for (int other = 1; other < size && !rank; other++) MPI_Recv(two, 1, MPI_INT, MPI_ANY_SOURCE, 7, copy, MPI_STATUS_IGNORE);
    MPI_Finalize();
    return 0;
}
