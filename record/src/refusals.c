/* What is refused of a recording, or taken or left out where that is asked for. */
#include "convert.h"

#include <stdio.h>
#include <stdlib.h>
#include <string.h>

struct refusal {
    const char *what, *function;
    int count, rank;
    const struct call *call;
    int softly;  /* --this-run takes it */
};
static struct refusal *refusals;
static int refusal_count;

static void refuse(const char *what, int rank, const struct call *call, int softly) {
    for (int i = 0; i < refusal_count; i++)
        if (!strcmp(refusals[i].what, what) && refusals[i].function == call->function) {
            refusals[i].count++;
            return;
        }
    refusals = room(refusals, sizeof *refusals * (size_t)(refusal_count + 1));
    refusals[refusal_count++] = (struct refusal){what, call->function, 1, rank, call, softly};
}

static int is_refused(const char *function) {
    for (int i = 0; i < refusal_count; i++)
        if (refusals[i].function == function) return 1;
    return 0;
}

static const char *const not_single = "not single-path: what comes next depends on what has arrived";

/* A test of sends alone often only looks for buffers that are free again. */
int tells_sends_alone(const struct rank *rank, const struct call *call) {
    if (strncmp(call->function, "MPI_Test", 8) || !call->count) return 0;
    for (int i = 0; i < call->count; i++) {
        int id = call->list[i];
        if (id <= 0 || id > rank->most_request || !rank->starts[id] || rank->calls[rank->starts[id] - 1].op != OP_ISEND) return 0;
    }
    return 1;
}

static int tests_taken;  /* tests of sends are left out, and it is not known that nothing depends on them */

static void leave_out_tests(int r) {
    struct rank *rank = ranks + r;
    int count = 0;
    const struct call *first = NULL;
    for (int i = 0; i < rank->count; i++) {
        struct call *call = rank->calls + i;
        if ((call->op == OP_POLLS || call->op == OP_TOOK || call->op == OP_ANY) && tells_sends_alone(rank, call)) {
            call->dropped = 1;
            if (!count++) first = call;
        }
    }
    if (count && !options.free_tests) tests_taken = 1;
    if (count)
        note("rank %d: %d tests of sends are left out (first in %s), and no wait is written for sends that a test alone completed: right where what "
             "comes next doesn't depend on them", r, count, place_of(rank, first));
}

/* What the program can have meant, where the recording shows it. */
static void refuse_call(int r, struct call *call) {
    struct rank *rank = ranks + r;
    if (call->error) {
        char text[400];
        snprintf(text, sizeof text, "it returned %.300s, and what became of it isn't known", call->wrong);
        refuse(same(text), r, call, 0);
        call->dropped = 1;
        return;
    }
    switch (call->op) {
    case OP_OTHER: refuse("not covered", r, call, 0); break;
    case OP_ANY:
        if (call->count) refuse(not_single, r, call, 1);
        break;
    case OP_POLLS: refuse(tells_sends_alone(rank, call) ? "tests of sends (--free-tests)" : not_single, r, call, 1); break;
    case OP_TOOK:
        if (!is_refused(call->function)) refuse(tells_sends_alone(rank, call) ? "tests of sends (--free-tests)" : not_single, r, call, 1);
        break;
    case OP_CANCEL: refuse("whether it is cancelled depends on what has arrived", r, call, 1); break;
    case OP_SEND:
    case OP_ISEND:
    case OP_RECV:
    case OP_IRECV:
    case OP_SENDRECV:
    case OP_PROBE:
    case OP_MPROBE:
    case OP_COLL:
    case OP_ICOLL:
        if (call->wrong || !group_of(rank, call)) {
            const char *without = "on MPI_COMM_NULL, an intercommunicator, or a communicator whose making was not seen";
            refuse(group_of(rank, call) ? call->wrong : without, r, call, 0);
            call->dropped = 1;
        }
        break;
    default: break;
    }
}

/* Calls of several threads stand in the order of this run. */
static void refuse_threads(int r) {
    if (!ranks[r].threads || !ranks[r].count) return;
    refuse("calls of several threads", r, ranks[r].calls, 1);
    if (options.this_run)
        note("rank %d: calls of several threads stand in the order of this run: a deadlock in which that rank waits may come of this order alone, and is "
             "then none of the program's", r);
}

void look_for_refusals(void) {
    for (int r = 0; r < rank_count; r++) {
        if (options.free_tests || options.this_run) leave_out_tests(r);
        if (options.outcomes)
            settle_choices(r);
        else
            settle_polls(r);
        refuse_threads(r);
        for (int i = 0; i < ranks[r].count; i++)
            if (!ranks[r].calls[i].dropped) refuse_call(r, ranks[r].calls + i);
    }
}

static void tell_what_is_taken(int softly, int left_out) {
    if (softly) {
        found_path(P_THIS_RUN);
        note("THE TEXT IS ONE PATH THAT ONE RUN TOOK: a deadlock may be none of the program's, and `no deadlock` says nothing of other paths (--paths)");
    }
    if (left_out) note("THE TEXT LACKS CALLS OF THE PROGRAM: a deadlock may be none of the program's, and `no deadlock` says nothing of what they wait for");
}

/* The exit status is 3 where something is refused that no option takes. */
void tell_refusals(void) {
    int hard = 0, softly = tests_taken, left_out = 0;
    for (int i = 0; i < refusal_count; i++) {
        const struct refusal *refusal = refusals + i;
        int taken = refusal->softly ? options.this_run : options.leave_out;
        const char *then = !taken ? "refused" : refusal->softly ? "taken as in this run" : "left out";
        char text[1500];
        snprintf(text, sizeof text, "%s: %s, %d calls, first in rank %d, %s: %s", then, refusal->function, refusal->count, refusal->rank,
                 place_of(ranks + refusal->rank, refusal->call), refusal->what);
        if (taken)
            note("%s", text);
        else
            fprintf(stderr, "%s\n", text);
        hard |= !taken, softly |= refusal->softly, left_out |= !refusal->softly;
    }
    if (hard) {
        fprintf(stderr, "nothing was written: the program is not single-path, or uses calls that are not covered (--paths, --this-run, --leave-out)\n");
        exit(3);
    }
    tell_what_is_taken(softly, left_out);
}
