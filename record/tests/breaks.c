/* Rank 1 ends without MPI_Finalize, in the way that the word tells: exit, signal or abort. */
#include <mpi.h>
#include <signal.h>
#include <stdlib.h>
#include <string.h>
#include <unistd.h>

int main(int argc, char **argv) {
    int rank, value = 1;
    MPI_Init(&argc, &argv);
    MPI_Comm_rank(MPI_COMM_WORLD, &rank);
    MPI_Barrier(MPI_COMM_WORLD);
    if (rank == 1) {
        sleep(1);
        if (argc < 2 || !strcmp(argv[1], "exit")) exit(9);
        if (!strcmp(argv[1], "signal")) raise(SIGSEGV);
        MPI_Abort(MPI_COMM_WORLD, 9);
    }
    MPI_Recv(&value, 1, MPI_INT, 1, 1, MPI_COMM_WORLD, MPI_STATUS_IGNORE);
    MPI_Finalize();
    return 0;
}
