/* Each rank of a ring exchanges a number with both neighbours, in rounds: even ranks send first, odd ones receive first. With an odd
   number of ranks the last and the first are neighbours that both send first, which hangs where neither send is buffered. */
#include <mpi.h>
#include <stdlib.h>

static void exchange(int neighbour, int sends_first) {
    int mine = neighbour, other;
    if (sends_first) MPI_Send(&mine, 1, MPI_INT, neighbour, 1, MPI_COMM_WORLD);
    MPI_Recv(&other, 1, MPI_INT, neighbour, 1, MPI_COMM_WORLD, MPI_STATUS_IGNORE);
    if (!sends_first) MPI_Send(&mine, 1, MPI_INT, neighbour, 1, MPI_COMM_WORLD);
}

int main(int argc, char **argv) {
    int rank, ranks;
    MPI_Init(&argc, &argv);
    MPI_Comm_rank(MPI_COMM_WORLD, &rank);
    MPI_Comm_size(MPI_COMM_WORLD, &ranks);
    int right = (rank + 1) % ranks, left = (rank + ranks - 1) % ranks, is_even = rank % 2 == 0;
    for (int round = 0, rounds = argc > 1 ? atoi(argv[1]) : 1; round < rounds; round++) {
        exchange(is_even ? right : left, is_even);
        exchange(is_even ? left : right, is_even);
    }
    MPI_Finalize();
}
