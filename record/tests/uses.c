/* Who was found is used: by a receive, by a receive that is waited for, and by nobody. The ranks send one after the other. */
#include <mpi.h>
#include <unistd.h>

int main(int argc, char **argv) {
    int rank, size, value = 1;
    MPI_Status status;
    MPI_Request request;
    MPI_Init(&argc, &argv);
    MPI_Comm_rank(MPI_COMM_WORLD, &rank);
    MPI_Comm_size(MPI_COMM_WORLD, &size);
    for (int way = 0; way < 3; way++)
        if (rank == 0)
            for (int i = 1; i < size; i++) {
                if (way == 0) {
                    MPI_Recv(&value, 1, MPI_INT, MPI_ANY_SOURCE, 1, MPI_COMM_WORLD, &status);
                    MPI_Recv(&value, 1, MPI_INT, status.MPI_SOURCE, 2, MPI_COMM_WORLD, MPI_STATUS_IGNORE);
                } else if (way == 1) {
                    MPI_Irecv(&value, 1, MPI_INT, MPI_ANY_SOURCE, 3, MPI_COMM_WORLD, &request);
                    MPI_Wait(&request, &status);
                    MPI_Send(&value, 1, MPI_INT, status.MPI_SOURCE, 4, MPI_COMM_WORLD);
                } else
                    MPI_Recv(&value, 1, MPI_INT, MPI_ANY_SOURCE, 5, MPI_COMM_WORLD, MPI_STATUS_IGNORE);
            }
        else {
            usleep((useconds_t)rank * 150000);
            if (way == 0) MPI_Send(&value, 1, MPI_INT, 0, 1, MPI_COMM_WORLD), MPI_Send(&value, 1, MPI_INT, 0, 2, MPI_COMM_WORLD);
            if (way == 1) MPI_Send(&value, 1, MPI_INT, 0, 3, MPI_COMM_WORLD), MPI_Recv(&value, 1, MPI_INT, 0, 4, MPI_COMM_WORLD, MPI_STATUS_IGNORE);
            if (way == 2) MPI_Send(&value, 1, MPI_INT, 0, 5, MPI_COMM_WORLD);
        }
    MPI_Finalize();
    return 0;
}
