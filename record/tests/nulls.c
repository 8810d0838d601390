/* Calls with null pointers, of which MPICH returns an error. */
#include <mpi.h>
#include <stdio.h>

int main(int argc, char **argv) {
    int value = 1, flag, index;
    MPI_Request request;
    MPI_Init(&argc, &argv);
    MPI_Comm_set_errhandler(MPI_COMM_WORLD, MPI_ERRORS_RETURN);
    MPI_Comm_set_errhandler(MPI_COMM_SELF, MPI_ERRORS_RETURN);
    int told = 0;
    told += MPI_Wait(NULL, MPI_STATUS_IGNORE) != MPI_SUCCESS;
    told += MPI_Waitall(2, NULL, MPI_STATUSES_IGNORE) != MPI_SUCCESS;
    told += MPI_Waitany(2, NULL, &index, MPI_STATUS_IGNORE) != MPI_SUCCESS;
    told += MPI_Test(NULL, &flag, MPI_STATUS_IGNORE) != MPI_SUCCESS;
    told += MPI_Start(NULL) != MPI_SUCCESS;
    told += MPI_Cancel(NULL) != MPI_SUCCESS;
    told += MPI_Request_free(NULL) != MPI_SUCCESS;
    told += MPI_Comm_free(NULL) != MPI_SUCCESS;
    told += MPI_Isend(&value, 1, MPI_INT, 0, 1, MPI_COMM_WORLD, NULL) != MPI_SUCCESS;
    told += MPI_Comm_dup(MPI_COMM_WORLD, NULL) != MPI_SUCCESS;
    told += MPI_Mrecv(&value, 1, MPI_INT, NULL, MPI_STATUS_IGNORE) != MPI_SUCCESS;
    told += MPI_Alltoallw(&value, NULL, NULL, NULL, &value, NULL, NULL, NULL, MPI_COMM_NULL) != MPI_SUCCESS;
    printf("%d errors\n", told);
    MPI_Finalize();
    return 0;
}
