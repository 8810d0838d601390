/* The manager and workers of the textbooks: one unit for each worker, one more for whoever answers, the last answers, and the stop. */
#include <mpi.h>
#include <unistd.h>

int main(int argc, char **argv) {
    int rank, size, unit = 0, units = 9, value = 1;
    MPI_Status status;
    MPI_Init(&argc, &argv);
    MPI_Comm_rank(MPI_COMM_WORLD, &rank);
    MPI_Comm_size(MPI_COMM_WORLD, &size);
    if (rank == 0) {
        for (int i = 1; i < size; i++, unit++) MPI_Send(&unit, 1, MPI_INT, i, 1, MPI_COMM_WORLD);
        for (; unit < units; unit++) {
            MPI_Recv(&value, 1, MPI_INT, MPI_ANY_SOURCE, 3, MPI_COMM_WORLD, &status);
            MPI_Send(&unit, 1, MPI_INT, status.MPI_SOURCE, 1, MPI_COMM_WORLD);
        }
        for (int i = 1; i < size; i++) MPI_Recv(&value, 1, MPI_INT, MPI_ANY_SOURCE, 3, MPI_COMM_WORLD, &status);
        for (int i = 1; i < size; i++) MPI_Send(&unit, 1, MPI_INT, i, 2, MPI_COMM_WORLD);
    } else
        for (;;) {
            MPI_Recv(&unit, 1, MPI_INT, 0, MPI_ANY_TAG, MPI_COMM_WORLD, &status);
            if (status.MPI_TAG == 2) break;
            usleep(50000 + 100000 * (useconds_t)(unit % 3 == rank % 3));
            MPI_Send(&value, 1, MPI_INT, 0, 3, MPI_COMM_WORLD);
        }
    MPI_Finalize();
    return 0;
}
