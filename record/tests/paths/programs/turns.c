/* Rank 0 polls in turn for requests, which it answers, and for reports, until it has one of each other rank. BUG 1: where a report came
   before any request it sends one answer too many, synchronously. */
#include "common.h"
enum { ASK = 1, REPORT, ANSWER };
int main(int c, char **v) {
    begin(&c, &v);
    if (me == 0) {
        int asked = 0, flag;
        for (int left = ranks - 1; left;) {
            MPI_Iprobe(MPI_ANY_SOURCE, ASK, MPI_COMM_WORLD, &flag, &got);
            if (flag) {
                get(got.MPI_SOURCE, ASK);
                put(got.MPI_SOURCE, ANSWER, 0);
                asked++, left--;
                continue;
            }
            MPI_Iprobe(MPI_ANY_SOURCE, REPORT, MPI_COMM_WORLD, &flag, &got);
            if (!flag) continue;
            get(got.MPI_SOURCE, REPORT);
            if (BUG == 1 && !asked) MPI_Ssend(&left, 1, MPI_INT, got.MPI_SOURCE, ANSWER, MPI_COMM_WORLD);
            left--;
        }
    } else if (me % 2)
        put(0, ASK, me), get(0, ANSWER);
    else
        put(0, REPORT, me);
    MPI_Finalize();
}
