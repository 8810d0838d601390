/* Rank 0 polls until it succeeds, in each of the ways: as if it waited. */
#include <mpi.h>
#include <unistd.h>

int main(int argc, char **argv) {
    int rank, flag = 0, value = 1, values[2];
    MPI_Status status;
    MPI_Init(&argc, &argv);
    MPI_Comm_rank(MPI_COMM_WORLD, &rank);
    if (rank == 0) {
        MPI_Request requests[2];
        MPI_Message message;
        MPI_Irecv(&value, 1, MPI_INT, 1, 1, MPI_COMM_WORLD, &requests[0]);
        while (!flag) MPI_Test(&requests[0], &flag, MPI_STATUS_IGNORE);
        for (int i = 0; i < 2; i++) MPI_Irecv(&values[i], 1, MPI_INT, 1, 2, MPI_COMM_WORLD, &requests[i]);
        for (flag = 0; !flag;) MPI_Testall(2, requests, &flag, MPI_STATUSES_IGNORE);
        for (flag = 0; !flag;) MPI_Iprobe(MPI_ANY_SOURCE, 3, MPI_COMM_WORLD, &flag, &status);
        MPI_Recv(&value, 1, MPI_INT, status.MPI_SOURCE, 3, MPI_COMM_WORLD, MPI_STATUS_IGNORE);
        for (flag = 0; !flag;) MPI_Improbe(1, 4, MPI_COMM_WORLD, &flag, &message, &status);
        MPI_Mrecv(&value, 1, MPI_INT, &message, MPI_STATUS_IGNORE);
    } else
        for (int tag = 1; tag <= 4; tag++)
            for (int i = 0; i < 1 + (tag == 2); i++) {
                usleep(100000);
                MPI_Send(&value, 1, MPI_INT, 0, tag, MPI_COMM_WORLD);
            }
    MPI_Finalize();
    return 0;
}
