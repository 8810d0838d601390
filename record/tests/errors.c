/* Calls that return an error, of which nothing was begun; then one message. */
#include <mpi.h>

int main(int argc, char **argv) {
    int rank, size, value = 1;
    MPI_Request request = MPI_REQUEST_NULL;
    MPI_Init(&argc, &argv);
    MPI_Comm_rank(MPI_COMM_WORLD, &rank);
    MPI_Comm_size(MPI_COMM_WORLD, &size);
    MPI_Comm_set_errhandler(MPI_COMM_WORLD, MPI_ERRORS_RETURN);
    MPI_Comm_set_errhandler(MPI_COMM_SELF, MPI_ERRORS_RETURN);
    if (rank == 0) {
        MPI_Send(&value, -1, MPI_INT, 1, 5, MPI_COMM_WORLD);
        MPI_Send(&value, 1, MPI_DATATYPE_NULL, 1, 5, MPI_COMM_WORLD);
        MPI_Send(&value, 1, MPI_INT, 99, 5, MPI_COMM_WORLD);
        MPI_Send(&value, 1, MPI_INT, 1, -5, MPI_COMM_WORLD);
        MPI_Send(&value, 1, MPI_INT, 1, MPI_ANY_TAG, MPI_COMM_WORLD);
        MPI_Send(&value, 1, MPI_INT, MPI_ANY_SOURCE, 5, MPI_COMM_WORLD);
        MPI_Isend(&value, 1, MPI_INT, 1, -5, MPI_COMM_WORLD, &request);
        MPI_Recv(&value, 1, MPI_INT, 99, 5, MPI_COMM_WORLD, MPI_STATUS_IGNORE);
        MPI_Bcast(&value, 1, MPI_INT, 77, MPI_COMM_WORLD);
        MPI_Send(&value, 1, MPI_INT, 0, 5, MPI_COMM_NULL);
        MPI_Send_init(&value, 1, MPI_INT, 99, 5, MPI_COMM_WORLD, &request);
    }
    MPI_Barrier(MPI_COMM_WORLD);
    if (rank == 0)
        MPI_Send(&value, 1, MPI_INT, 1, 6, MPI_COMM_WORLD);
    else
        MPI_Recv(&value, 1, MPI_INT, 0, 6, MPI_COMM_WORLD, MPI_STATUS_IGNORE);
    MPI_Finalize();
    return 0;
}
