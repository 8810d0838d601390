/* Whether a rank seems to use what a wildcard found: then another run may take another path. */
#include "convert.h"

#include <stdlib.h>
#include <string.h>

static enum path path;

void found_path(enum path other) {
    if (other > path) path = other;
}

void put_path(FILE *map) {
    if (path) fprintf(map, "text path: %s\n", path == P_THIS_RUN ? "this run" : "one of several");
}

/* What comes of one kind of use. */
struct use {
    int times, of, several, first_found;
    const struct call *first;
};
static struct use sends, receives;

static void count_use(struct use *use, int found, int peer, const struct call *call) {
    use->of++;
    if (peer != found) return;
    if (!use->times++) use->first_found = found, use->first = call;
    use->several |= found != use->first_found;
}

/* What the rank does next with another rank, behind call `i` in which it learned of one. */
static void look_behind(const struct rank *rank, int i, int found) {
    const struct call *call = rank->calls + i;
    for (int k = i + 1; k < rank->count; k++) {
        const struct call *next = rank->calls + k;
        if (next->dropped || (call->message && next->message == call->message)) continue;
        switch (next->op) {
        case OP_SEND:
        case OP_ISEND:
        case OP_SENDRECV: count_use(&sends, found, next->peer, next); return;
        case OP_RECV:
        case OP_IRECV:
        case OP_PROBE:
        case OP_MPROBE:
            if (next->peer != ANY) count_use(&receives, found, next->peer, next);
            return;
        default: break;
        }
    }
}

static void look_behind_wait(const struct rank *rank, int i) {
    const struct call *call = rank->calls + i;
    for (int k = 0; k < call->count; k++) {
        int id = call->list[k];
        const struct call *start = id > 0 && id <= rank->most_request && rank->starts[id] ? rank->calls + rank->starts[id] - 1 : NULL;
        if (!start || start->op != OP_IRECV) continue;
        if (start->peer == ANY && start->found != WRONG && start->asked)
            look_behind(rank, i, start->found);
        else if (call->op == OP_TOOK && call->count == 1 && start->peer >= 0)
            look_behind(rank, i, start->peer);  /* the index told it */
    }
}

static void warn(int r, const struct use *use, const char *does) {
    if (!use->several || use->times < 2 || use->times * 2 <= use->of) return;
    found_path(P_ONE_OF_SEVERAL);
    note("WARNING: %d of %d times rank %d %s whom it found (first in %s): the program seems not to be single-path; --twice may tell, --paths follows the others", use->times, use->of, r,
         does, place_of(ranks + r, use->first));
}

void warn_of_paths(int r) {
    const struct rank *rank = ranks + r;
    memset(&sends, 0, sizeof sends);
    memset(&receives, 0, sizeof receives);
    for (int i = 0; i < rank->count; i++) {
        const struct call *call = rank->calls + i;
        if (call->dropped) continue;
        if (call->op == OP_WAIT || call->op == OP_TOOK)
            look_behind_wait(rank, i);
        else if (call->op != OP_IRECV && call->found != WRONG && call->asked && (call->op == OP_SENDRECV ? call->peer2 : call->peer) == ANY)
            look_behind(rank, i, call->found);
    }
    warn(r, &sends, "sends to");
    warn(r, &receives, "receives from");
}
