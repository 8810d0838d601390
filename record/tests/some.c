/* MPI_Waitsome for sends that are complete at once, until all are done; the handles were moved since. */
#include <mpi.h>

int main(int argc, char **argv) {
    int rank, value = 1, indices[6], count, done = 0;
    MPI_Request first[6], moved[6];
    MPI_Init(&argc, &argv);
    MPI_Comm_rank(MPI_COMM_WORLD, &rank);
    if (rank == 0) {
        for (int i = 0; i < 6; i++) MPI_Isend(&value, 1, MPI_INT, 1, i, MPI_COMM_WORLD, &first[i]);
        for (int i = 0; i < 6; i++) moved[i] = first[5 - i];
        while (done < 6) {
            MPI_Waitsome(6, moved, &count, indices, MPI_STATUSES_IGNORE);
            done += count;
        }
    } else
        for (int i = 0; i < 6; i++) MPI_Recv(&value, 1, MPI_INT, 0, i, MPI_COMM_WORLD, MPI_STATUS_IGNORE);
    MPI_Finalize();
    return 0;
}
