/* Rank 1 may write no more files from its first call on, as on a full disk; with a number behind so many seconds. */
#include <mpi.h>
#include <signal.h>
#include <stdlib.h>
#include <sys/resource.h>
#include <unistd.h>

int main(int argc, char **argv) {
    int rank;
    struct rlimit none = {0, 0};
    MPI_Init(&argc, &argv);
    MPI_Comm_rank(MPI_COMM_WORLD, &rank);
    MPI_Barrier(MPI_COMM_WORLD);
    signal(SIGXFSZ, SIG_IGN);
    if (argc > 1) sleep((unsigned)atoi(argv[1]));
    if (rank == 1) setrlimit(RLIMIT_FSIZE, &none);
    MPI_Barrier(MPI_COMM_WORLD);
    MPI_Finalize();
    return 0;
}
