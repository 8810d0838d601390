/* Which starts are waited for, which probes tell a receive what to take, and which receives nothing can end. */
#include "convert.h"

#include <stdlib.h>

/* The call that made a request or message, or NULL. */
static struct call *start_of(const struct rank *rank, int id) {
    return id > 0 && id <= rank->most_request && rank->starts[id] ? rank->calls + rank->starts[id] - 1 : NULL;
}

/* Leaves in the list of a wait what has a line of its own. Gives how many of its requests have no start that was recorded. */
static int settle_wait(const struct rank *rank, struct call *call) {
    int kept = 0, unknown = 0, at = (int)(call - rank->calls);
    for (int i = 0; i < call->count; i++) {
        int id = call->list[i];
        struct call *start = start_of(rank, id);
        if (!start || start - rank->calls > at) {
            unknown++;
            continue;
        }
        start->unwaited = 0;
        if (start->dropped || start->peer == NOBODY) continue;
        call->list[kept++] = id;
    }
    call->count = kept;
    return unknown;
}

void settle_starts(int r) {
    struct rank *rank = ranks + r;
    int unknown = 0;
    for (int i = 0; i < rank->count; i++) {
        struct call *call = rank->calls + i, *of = start_of(rank, call->of), *start = start_of(rank, call->id);
        if (start == call) call->unwaited = 1;
        if (call->op == OP_CANCEL && start && start->op == OP_IRECV) start->dropped = 1;
        if (call->op == OP_FREE && start) start->freed = 1;
        if (of && !call->dropped) of->unwaited = 0;
        if ((call->op == OP_WAIT || call->op == OP_TOOK) && !call->dropped) unknown += settle_wait(rank, call);
    }
    if (unknown) note("rank %d waits for %d requests whose start was not recorded: left out", r, unknown);
}

/* ---- probes whose status the next receive uses ---- */

static int may_find(const struct call *call, int comm) {
    switch (call->op) {
    case OP_RECV:
    case OP_IRECV:
    case OP_SENDRECV:
    case OP_PROBE:
    case OP_MPROBE: return call->comm == comm;
    default: return 0;
    }
}

void join_probes(int r) {
    struct rank *rank = ranks + r;
    int joined = 0;
    const struct call *first = NULL;
    for (int i = 0; i < rank->count; i++) {
        struct call *call = rank->calls + i;
        if (call->found == WRONG || call->op != OP_PROBE || !call->asked || call->dropped) continue;
        int k = i + 1;
        while (k < rank->count && !may_find(rank->calls + k, call->comm)) k++;
        struct call *next = rank->calls + k;
        if (k == rank->count || (next->op != OP_RECV && next->op != OP_IRECV) || next->dropped) continue;
        if (next->peer != call->found || next->tag != call->found_tag) continue;
        call->message = next->message = fresh_part(r);
        if (!joined++) first = call;
    }
    if (joined)
        note("rank %d: %d probes (first in %s) are followed by a receive from the source and with the tag that was found; they are written as matched "
             "probes and receives on their handles, which is the same where the receive takes both from the status, and is not where they stand there by chance",
             r, joined, place_of(rank, first));
}

/* ---- receives that nothing waited for, and that no send fits ---- */

static int is_send_to(const struct call *call, int to) {
    return !call->dropped && call->peer == to && (call->op == OP_SEND || call->op == OP_ISEND || call->op == OP_SENDRECV);
}

static int fits_some(int r, const struct call *receive) {
    const struct group *group = group_of(ranks + r, receive);
    for (int s = 0; s < rank_count; s++)
        for (int i = 0; i < ranks[s].count && (receive->peer == ANY || receive->peer == s); i++) {
            const struct call *call = ranks[s].calls + i;
            if (is_send_to(call, r) && group_of(ranks + s, call)->name == group->name && (receive->tag == ANY || receive->tag == call->tag)) return 1;
        }
    return 0;
}

/* They take part in nothing. At most so many are looked at, since each is compared with all sends. */
#define MOST_LOOKED_AT 1000

void leave_out_unmatched(void) {
    int looked_at = 0;
    for (int r = 0; r < rank_count; r++)
        for (int i = 0; i < ranks[r].count && looked_at < MOST_LOOKED_AT; i++) {
            struct call *call = ranks[r].calls + i;
            if (call->op != OP_IRECV || !call->unwaited || call->dropped || call->message || call->peer == NOBODY) continue;
            looked_at++;
            if (fits_some(r, call)) continue;
            call->dropped = 1;
            note("rank %d: MPI_Irecv in %s is left out: no send fits it, and nothing waited for it", r, place_of(ranks + r, call));
        }
}
