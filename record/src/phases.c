/* Cuts the recording where nothing goes across.

   A collective call in which nobody leaves before all ranks of the program have come is a cut if, in each rank, no request and no
   message of a probe is held across it, all ranks together send as many messages before it as they receive, since the last cut, and
   each other collective has all its calls on one side. Whatever run is taken: when all have come, each receive before the cut is
   done, so as many messages are taken as were sent, and none is left that could be taken behind it. */
#include "convert.h"

#include <stdlib.h>

struct side {
    int at;          /* index of the next call */
    int open;        /* starts and probes whose ends have not come */
    long balance;    /* messages sent less messages received */
};

static void pass(struct side *side, const struct call *call) {
    if (call->message && call->op == OP_PROBE) {
        side->balance--;
        side->open++;
        return;
    }
    if (call->message) side->balance++, side->open--;  /* the probe before it took the message */
    if (call->dropped) return;
    switch (call->op) {
    case OP_SEND: side->balance += call->peer != NOBODY; break;
    case OP_RECV: side->balance -= call->peer != NOBODY; break;
    case OP_SENDRECV: side->balance += (call->peer != NOBODY) - (call->peer2 != NOBODY); break;
    case OP_ISEND:
        if (call->peer == NOBODY || call->dropped) break;
        side->balance++;
        if (!call->unwaited) side->open++;
        break;
    case OP_IRECV:
        if (call->peer == NOBODY || call->dropped) break;
        side->balance--;
        side->open++;
        break;
    case OP_MPROBE:
        if (call->peer == NOBODY) break;
        side->balance--;
        side->open++;
        break;
    case OP_MRECV: side->open -= call->of > 0; break;
    case OP_ICOLL: side->open++; break;
    case OP_WAIT:
    case OP_TOOK:
        for (int i = 0; i < call->count; i++) side->open -= call->list[i] > 0;
        break;
    default: break;
    }
}

int phase_count = 1;

/* Of each rank, where the phase that is looked at begins; and how many collectives have calls on both sides of the place looked at. */
static struct side *sides;
static int *from;
static int torn;

static void pass_instance(struct instance *instance) {
    if (!instance->passed++) torn++;
    if (instance->passed == instance->group->size) torn--;
}

/* Goes on in each rank up to its call of the instance. Gives whether nothing is held there, and as many messages were received as sent. */
static int is_quiet(const struct instance *instance) {
    int quiet = 1;
    long balance = 0;
    for (int r = 0; r < rank_count; r++) {
        struct side *side = sides + r;
        int to = (int)(instance->calls[place_in(instance->group, r)] - ranks[r].calls);
        if (to < side->at) {
            quiet = 0;
            continue;
        }
        for (; side->at < to; side->at++) {
            struct call *call = ranks[r].calls + side->at;
            pass(side, call);
            if (call->instance) pass_instance(call->instance);
        }
        if (side->open) quiet = 0;
        balance += side->balance;
    }
    return quiet && balance == 0;
}

static void number_phase(int rank, int to, int phase) {
    for (int k = from[rank]; k < to; k++) ranks[rank].calls[k].phase = phase;
}

/* The waits of a recording that is settled name requests alone whose starts have a line. */
int find_cuts(void) {
    int phase = 0;
    sides = zeros((size_t)rank_count, sizeof *sides);
    from = zeros((size_t)rank_count, sizeof *from);
    for (int i = 0; i < ranks[0].count; i++) {
        const struct call *call = ranks[0].calls + i;
        if (call->op != OP_COLL || !call->instance || !call->instance->whole || !is_full(call->instance)) continue;
        if (!is_quiet(call->instance) || torn) continue;
        call->instance->cut = 1;
        for (int r = 0; r < rank_count; r++) {
            number_phase(r, sides[r].at, phase);
            from[r] = sides[r].at;
            sides[r].balance = 0;
        }
        phase++;
    }
    for (int r = 0; r < rank_count; r++) number_phase(r, ranks[r].count, phase);
    free(sides);
    free(from);
    return phase + 1;
}

/* The ranks' recordings end anywhere; what all of them have as a whole ends at the last cut. */
void leave_out_the_rest(int phase) {
    long all = 0, kept = 0;
    for (int r = 0; r < rank_count; r++) {
        int most = ranks[r].count;
        all += most;
        while (most && ranks[r].calls[most - 1].phase >= phase) most--;
        kept += ranks[r].count = most;
    }
    if (kept * 10 < all)
        fail(3, "of %ld recorded calls %ld stand before the last of %d cuts, and what is behind it isn't whole: less than a tenth is no answer (more "
             "--calls, or --marks)", all, kept, phase);
    note("%ld of %ld recorded calls are in the text: what stands behind the last of %d cuts isn't whole and is left out", kept, all, phase);
}
