/* Rank 2 passes on whichever of two messages comes first, so its message may reach rank 0 before that of rank 1, which is what rank 0
   passed on before. BUG 1: then rank 0 waits for a word that nobody sends. */
#include "common.h"
int main(int c, char **v) {
    begin(&c, &v);
    if (me == 0) {
        get(MPI_ANY_SOURCE, 1);
        int first = got.MPI_SOURCE;
        putb(2, 2, 0);
        get(MPI_ANY_SOURCE, 1);
        if (BUG == 1 && first == 2) get(1, 3);
    } else if (me == 1) {
        putb(0, 1, 0);
        usleep(100000);
        putb(2, 2, 0);
    } else {
        get(MPI_ANY_SOURCE, 2);
        putb(0, 1, 0);
        get(MPI_ANY_SOURCE, 2);
    }
    MPI_Finalize();
}
