/* A collective call that rank 0 never makes: rank 1 needn't wait in it, so no run hangs. */
#include <mpi.h>

int main(int argc, char **argv) {
    int rank, value = 1, sum;
    MPI_Request request;
    MPI_Init(&argc, &argv);
    MPI_Comm_rank(MPI_COMM_WORLD, &rank);
    if (rank == 1) {
        MPI_Ireduce(&value, &sum, 1, MPI_INT, MPI_SUM, 0, MPI_COMM_WORLD, &request);
        MPI_Wait(&request, MPI_STATUS_IGNORE);
    }
    MPI_Finalize();
    return 0;
}
