/* Two threads in each rank that send to each other by a tag of their own. */
#include <mpi.h>
#include <pthread.h>

static int rank;

static void *talk(void *tag) {
    int value = 1;
    if (rank == 0)
        MPI_Send(&value, 1, MPI_INT, 1, *(int *)tag, MPI_COMM_WORLD);
    else
        MPI_Recv(&value, 1, MPI_INT, 0, *(int *)tag, MPI_COMM_WORLD, MPI_STATUS_IGNORE);
    return NULL;
}

int main(int argc, char **argv) {
    int provided, tags[2] = {1, 2};
    pthread_t other;
    MPI_Init_thread(&argc, &argv, MPI_THREAD_MULTIPLE, &provided);
    MPI_Comm_rank(MPI_COMM_WORLD, &rank);
    pthread_create(&other, NULL, talk, &tags[1]);
    talk(&tags[0]);
    pthread_join(other, NULL);
    MPI_Finalize();
    return 0;
}
