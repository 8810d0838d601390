/* Rank 0 makes a communicator with each other rank, from the last one down, by their group alone; and again by another tag. */
#include <mpi.h>

int main(int argc, char **argv) {
    int rank, size;
    MPI_Group world, pair;
    MPI_Init(&argc, &argv);
    MPI_Comm_rank(MPI_COMM_WORLD, &rank);
    MPI_Comm_size(MPI_COMM_WORLD, &size);
    MPI_Comm_group(MPI_COMM_WORLD, &world);
    for (int tag = 7; tag <= 70; tag += 63)
        for (int k = size - 1; k > 0; k--)
            if (rank == 0 || rank == k) {
                int members[2] = {0, k};
                MPI_Comm made;
                MPI_Group_incl(world, 2, members, &pair);
                MPI_Comm_create_group(MPI_COMM_WORLD, pair, tag, &made);
                MPI_Barrier(made);
                MPI_Group_free(&pair);
            }
    MPI_Finalize();
    return 0;
}
