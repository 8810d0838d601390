/* A handler of errors that doesn't return; behind it both ranks send to each other first. */
#include <mpi.h>
#include <setjmp.h>

static jmp_buf back;

static void jump(MPI_Comm *comm, int *code, ...) {
    (void)comm, (void)code;
    longjmp(back, 1);
}

int main(int argc, char **argv) {
    int rank, value = 1;
    MPI_Errhandler handler;
    MPI_Init(&argc, &argv);
    MPI_Comm_rank(MPI_COMM_WORLD, &rank);
    MPI_Comm_create_errhandler(jump, &handler);
    MPI_Comm_set_errhandler(MPI_COMM_WORLD, handler);
    if (!setjmp(back)) MPI_Send(&value, 1, MPI_INT, 99, 1, MPI_COMM_WORLD);
    MPI_Send(&value, 1, MPI_INT, !rank, 1, MPI_COMM_WORLD);
    MPI_Recv(&value, 1, MPI_INT, !rank, 1, MPI_COMM_WORLD, MPI_STATUS_IGNORE);
    MPI_Finalize();
    return 0;
}
