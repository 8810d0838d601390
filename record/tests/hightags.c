/* A message with the highest tag and one with the tag below it, received in the other order. */
#include <mpi.h>

int main(int argc, char **argv) {
    int rank, size, found, in[2], out = 1, *highest;
    MPI_Request requests[2];
    MPI_Init(&argc, &argv);
    MPI_Comm_rank(MPI_COMM_WORLD, &rank);
    MPI_Comm_size(MPI_COMM_WORLD, &size);
    MPI_Comm_get_attr(MPI_COMM_WORLD, MPI_TAG_UB, &highest, &found);
    int tag = *highest, left = (rank + size - 1) % size, right = (rank + 1) % size;
    MPI_Irecv(&in[0], 1, MPI_INT, left, tag - 1, MPI_COMM_WORLD, &requests[0]);
    MPI_Irecv(&in[1], 1, MPI_INT, left, tag, MPI_COMM_WORLD, &requests[1]);
    MPI_Ssend(&out, 1, MPI_INT, right, tag, MPI_COMM_WORLD);
    MPI_Ssend(&out, 1, MPI_INT, right, tag - 1, MPI_COMM_WORLD);
    MPI_Waitall(2, requests, MPI_STATUSES_IGNORE);
    MPI_Finalize();
    return 0;
}
