/* It ends by itself where the message of rank 2 came first, which is late. */
#include "common.h"
int main(int c, char **v) {
    begin(&c, &v);
    if (me == 0) {
        get(MPI_ANY_SOURCE, 1);
        if (got.MPI_SOURCE == 2) exit(4);
        get(MPI_ANY_SOURCE, 1);
    } else {
        if (me == 2) usleep(300000);
        put(0, 1, me);
    }
    MPI_Finalize();
}
