/* Rank 0 reads how many messages it is to send. */
#include <mpi.h>
#include <stdio.h>

int main(int argc, char **argv) {
    int rank, count = 0;
    MPI_Init(&argc, &argv);
    MPI_Comm_rank(MPI_COMM_WORLD, &rank);
    if (rank == 0 && scanf("%d", &count) != 1) count = 0;
    MPI_Bcast(&count, 1, MPI_INT, 0, MPI_COMM_WORLD);
    for (int i = 0; i < count; i++)
        if (rank == 0)
            MPI_Send(&count, 1, MPI_INT, 1, i, MPI_COMM_WORLD);
        else
            MPI_Recv(&count, 1, MPI_INT, 0, i, MPI_COMM_WORLD, MPI_STATUS_IGNORE);
    MPI_Finalize();
    return 0;
}
