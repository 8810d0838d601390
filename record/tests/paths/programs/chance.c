/* Its calls depend on the time and not only on what they found, so it isn't deterministic: each run of a folder sends one message more. */
#include "common.h"
int main(int c, char **v) {
    begin(&c, &v);
    long times = 0;
    FILE *file = fopen(v[1], "r");
    if (file) fscanf(file, "%ld", &times), fclose(file);
    MPI_Barrier(MPI_COMM_WORLD);
    if (me == 0) {
        for (int k = 0; k <= times; k++) put(1, 1, k);
        file = fopen(v[1], "w");
        fprintf(file, "%ld\n", times + 1);
        fclose(file);
    }
    if (me == 1)
        for (int k = 0; k <= times; k++) get(MPI_ANY_SOURCE, 1);
    MPI_Finalize();
}
