/* Rank 0 collects a header and a block of data from each other rank. */
#include <mpi.h>
#include <stdio.h>
#include <stdlib.h>

#define HEADER 10
#define DATA 11

static void collect(char *header, char *data, int length, int ranks) {
    for (int i = 1; i < ranks; i++) {
        MPI_Recv(header, length, MPI_CHAR, MPI_ANY_SOURCE, HEADER, MPI_COMM_WORLD, MPI_STATUS_IGNORE);
        MPI_Recv(data, length, MPI_CHAR, i, DATA, MPI_COMM_WORLD, MPI_STATUS_IGNORE);
    }
    puts("checkpoint written");
}

int main(int count, char **words) {
    int rank, ranks, length = count > 1 ? atoi(words[1]) : 64;
    MPI_Init(&count, &words);
    MPI_Comm_rank(MPI_COMM_WORLD, &rank);
    MPI_Comm_size(MPI_COMM_WORLD, &ranks);
    char *header = calloc(length, 1), *data = calloc(length, 1);
    if (rank == 0) {
        collect(header, data, length, ranks);
    } else {
        MPI_Send(header, length, MPI_CHAR, 0, HEADER, MPI_COMM_WORLD);
        MPI_Send(data, length, MPI_CHAR, 0, DATA, MPI_COMM_WORLD);
    }
    MPI_Finalize();
    return 0;
}
