/* What stands for a wait or a probe: one that a rank polls until it succeeds, and waits for one or some until all are done. */
#include "convert.h"

#include <stdlib.h>
#include <string.h>

static int is_test(const struct call *call) { return !strncmp(call->function, "MPI_Test", 8); }

static int next_of(const struct rank *rank, int i) {
    while (++i < rank->count && rank->calls[i].dropped) {}
    return i;
}

/* Whether a call is the success of what failed before. */
static int is_success(const struct call *failed, const struct call *call) {
    if (failed->function != call->function) return 0;
    if (call->op == OP_IPROBE || call->op == OP_IMPROBE)
        return failed->comm == call->comm && failed->peer == call->peer && failed->tag == call->tag;
    return (call->op == OP_TOOK || call->op == OP_ANY) && failed->count == call->count &&
           !memcmp(failed->list, call->list, sizeof(int) * (size_t)call->count);
}

/* What a failed poll waits for where the recording ends within such a row: as if the rank were blocked there. */
static enum operation operation_awaited(const struct call *call) {
    if (!strcmp(call->function, "MPI_Test") || !strcmp(call->function, "MPI_Testall") || (is_test(call) && call->count == 1)) return OP_WAIT;
    return strstr(call->function, "probe") ? OP_PROBE : OP_POLLS;
}

static int is_last(const struct rank *rank, int i) { return next_of(rank, i) == rank->count && !rank->ended && !rank->aborted && !rank->cut; }

static void settle_poll(struct rank *rank, int i) {
    struct call *call = rank->calls + i;
    int next = next_of(rank, i);
    if (call->op == OP_IPROBE)
        call->op = OP_PROBE;
    else if (call->op == OP_IMPROBE)
        call->op = OP_MPROBE;
    else if (call->op == OP_TOOK && (!strcmp(call->function, "MPI_Test") || !strcmp(call->function, "MPI_Testall")))
        call->op = OP_WAIT;
    else if (call->op == OP_POLLS && next < rank->count && is_success(call, rank->calls + next))
        call->dropped = 1;
    else if (call->op == OP_POLLS && is_last(rank, i))
        call->op = (unsigned char)operation_awaited(call);
}

/* Takes the names of one list out of another; 0: one of them isn't there. */
static int take_out(int *from, int *count, const struct call *call) {
    for (int i = 0; i < call->count; i++) {
        int at = 0;
        while (at < *count && from[at] != call->list[i]) at++;
        if (at == *count) return 0;
        from[at] = from[--*count];
    }
    return 1;
}

/* The call behind those that take all that the call named, or 0: the rank doesn't go on with them until all is done. */
static int end_of_waits(const struct rank *rank, int i) {
    const struct call *call = rank->calls + i;
    int left = call->count, *names = room(NULL, sizeof(int) * (size_t)left), k = next_of(rank, i);
    memcpy(names, call->list, sizeof(int) * (size_t)left);
    for (; k < rank->count && left; k = next_of(rank, k)) {
        const struct call *next = rank->calls + k;
        if (next->op == OP_ANY || (next->op == OP_POLLS && next->function == call->function)) continue;
        if ((next->op != OP_TOOK && next->op != OP_WAIT) || !take_out(names, &left, next)) break;
    }
    free(names);
    if (left) return 0;
    while (k < rank->count && rank->calls[k].op == OP_ANY && !rank->calls[k].count) k = next_of(rank, k);
    return k;
}

/* MPI_Waitany or MPI_Waitsome again and again, until all that the first one named is done, and no other call in between: the rank
   goes on once all is done, in whatever order, as behind MPI_Waitall. */
static void join_waits(int r) {
    struct rank *rank = ranks + r;
    int joined = 0;
    const struct call *first = NULL;
    for (int i = 0; i < rank->count; i++) {
        struct call *call = rank->calls + i;
        int end = call->op == OP_ANY && call->count && !call->dropped ? end_of_waits(rank, i) : 0;
        if (!end) continue;
        call->op = OP_WAIT;
        for (int j = i + 1; j < end; j++) rank->calls[j].dropped = 1;
        if (!joined++) first = call;
    }
    if (joined)
        note("rank %d: %d times %s (first in %s) was called until all that it named was done, with no other call in between; it is written as one "
             "wait for all, which is right where the program never stops earlier", r, joined, first->function, place_of(rank, first));
}

void settle_polls(int r) {
    struct rank *rank = ranks + r;
    int polled = 0;
    const struct call *first = NULL;
    join_waits(r);
    for (int i = 0; i < rank->count; i++) {
        struct call *call = rank->calls + i;
        int polls = call->op == OP_IPROBE || call->op == OP_IMPROBE || call->op == OP_POLLS || (call->op == OP_TOOK && is_test(call));
        if (!polls || call->dropped || tells_sends_alone(rank, call)) continue;
        settle_poll(rank, i);
        if (call->op != OP_POLLS && call->op != OP_TOOK && !polled++) first = call;
    }
    if (polled)
        note("rank %d: %d times %s or its like (first in %s) is written as the wait or probe that it stands for, which is right where the program polls "
             "until it succeeds", r, polled, first->function, place_of(rank, first));
}
