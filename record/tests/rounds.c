/* Rounds of an exchange with both neighbours in a ring, nonblocking; `unsafe` then sends before it receives. rounds N [unsafe] */
#include <mpi.h>
#include <stdlib.h>

int main(int argc, char **argv) {
    int rank, size, out = 1, in[2];
    MPI_Init(&argc, &argv);
    MPI_Comm_rank(MPI_COMM_WORLD, &rank);
    MPI_Comm_size(MPI_COMM_WORLD, &size);
    int left = (rank + size - 1) % size, right = (rank + 1) % size;
    for (int round = 0; round < atoi(argv[1]); round++) {
        MPI_Request requests[4];
        MPI_Irecv(&in[0], 1, MPI_INT, left, 1, MPI_COMM_WORLD, &requests[0]);
        MPI_Irecv(&in[1], 1, MPI_INT, right, 2, MPI_COMM_WORLD, &requests[1]);
        MPI_Isend(&out, 1, MPI_INT, left, 2, MPI_COMM_WORLD, &requests[2]);
        MPI_Isend(&out, 1, MPI_INT, right, 1, MPI_COMM_WORLD, &requests[3]);
        MPI_Waitall(4, requests, MPI_STATUSES_IGNORE);
    }
    if (argc > 2) {
        MPI_Send(&out, 1, MPI_INT, right, 3, MPI_COMM_WORLD);
        MPI_Recv(&in[0], 1, MPI_INT, left, 3, MPI_COMM_WORLD, MPI_STATUS_IGNORE);
    }
    MPI_Finalize();
    return 0;
}
