/* Tests of sends alone, which wait for nothing: each rank sends to the other one before it receives. */
#include <mpi.h>
#include <unistd.h>

int main(int argc, char **argv) {
    int rank, flag, value = 1, other;
    MPI_Request request;
    MPI_Init(&argc, &argv);
    MPI_Comm_rank(MPI_COMM_WORLD, &rank);
    MPI_Isend(&value, 1, MPI_INT, !rank, 1, MPI_COMM_WORLD, &request);
    usleep(200000);
    MPI_Test(&request, &flag, MPI_STATUS_IGNORE);
    MPI_Recv(&other, 1, MPI_INT, !rank, 1, MPI_COMM_WORLD, MPI_STATUS_IGNORE);
    while (!flag) MPI_Test(&request, &flag, MPI_STATUS_IGNORE);
    MPI_Finalize();
    return 0;
}
