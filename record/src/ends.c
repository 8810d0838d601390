/* How the run ended: whether the ranks that didn't end are stuck where they stand, or were cut off, or the run broke. */
#include "convert.h"

#include <stdlib.h>
#include <string.h>

enum end { E_FINISHED, E_HUNG, E_CUT_OFF, E_CRASHED, E_AT_A_CUT, E_MARKS };
static enum end end;

static const char *const end_words[] = {"finished", "hung", "cut off", "crashed", "at a cut", "between marks"};

static int is_open(const struct rank *rank) { return !rank->ended && !rank->cut && !rank->marks; }

static const struct call *last_call(const struct rank *rank) { return rank->count ? rank->calls + rank->count - 1 : NULL; }

/* Whether a rank stands in its last call. A poll is one of a row. */
static const char *where(const struct rank *rank) {
    const struct call *last = last_call(rank);
    int inside = rank->aborted || rank->inside == 'i' || !strncmp(last->function, "MPI_Test", 8) || strstr(last->function, "MPI_Ip") ||
                 strstr(last->function, "MPI_Imp");
    return inside ? "in" : rank->inside ? "behind" : "in or behind";
}

/* A run that ended by itself and in which a rank didn't finalize isn't the program. */
void look_at_ends(void) {
    int broken = 0;
    for (int r = 0; r < rank_count; r++) broken |= ranks[r].aborted || (is_open(ranks + r) && options.run >= 0);
    if (!broken) return;
    end = E_CRASHED;
    for (int r = 0; r < rank_count && !options.this_run; r++) {
        const struct rank *rank = ranks + r;
        const struct call *last = last_call(rank);
        if (!is_open(rank)) continue;
        if (last)
            fprintf(stderr, "refused: rank %d did not end: it stands %s %s in %s\n", r, where(rank), last->function, place_of(rank, last));
        else
            fprintf(stderr, "refused: rank %d did not end, and made no call\n", r);
    }
    if (!options.this_run) fail(3, "the run broke off: what was recorded isn't the program (--this-run takes it)");
    note("the run broke off: where another rank waits at its end, that is no deadlock of the program");
}

/* ---- whether the ranks are stuck where they stand ---- */

/* The messages of one rank to another in a communicator that were not taken, and the receives of a rank that found nothing. */
struct queue {
    int from, to;
    const char *comm;
    struct line **at;
    int count, room, first;
};
static struct queue *queues;
static size_t queue_room, queue_count;
static struct queue **receives;  /* of each rank, in the order in which they were started */

static struct queue *queue_of(int from, int to, const char *comm) {
    if (queue_count * 2 >= queue_room) {
        struct queue *old = queues;
        size_t count = queue_room;
        queue_room = queue_room * 2 + 1024;
        queues = zeros(queue_room, sizeof *queues);
        queue_count = 0;
        for (size_t i = 0; i < count; i++)
            if (old[i].at) *queue_of(old[i].from, old[i].to, old[i].comm) = old[i];
        free(old);
    }
    size_t at = hash_of_message(from, to, 0, comm) % queue_room;
    while (queues[at].at && (queues[at].from != from || queues[at].to != to || queues[at].comm != comm)) at = (at + 1) % queue_room;
    if (!queues[at].at) {
        queues[at] = (struct queue){from, to, comm, room(NULL, sizeof(struct line *) * 4), 0, 4, 0};
        queue_count++;
    }
    return queues + at;
}

static void push(struct queue *queue, struct line *line) {
    if (queue->count == queue->room) queue->at = room(queue->at, sizeof *queue->at * (size_t)(queue->room = queue->room * 2 + 4));
    queue->at[queue->count++] = line;
}

static int fits(const struct line *send, int tag) { return tag == ANY || send->tag == tag; }

/* Takes the first message that fits, or only looks for it. */
static int take(struct queue *queue, int tag, int only_look) {
    for (int i = queue->first; i < queue->count; i++) {
        struct line *send = queue->at[i];
        if (!send || !fits(send, tag)) continue;
        if (only_look) return 1;
        send->done = 1;
        queue->at[i] = NULL;
        while (queue->first < queue->count && !queue->at[queue->first]) queue->first++;
        return 1;
    }
    return 0;
}

static int is_send(const struct line *line) { return line->word <= W_IBSEND || line->word == W_SENDRECV; }
static int is_receive(const struct line *line) { return line->word == W_SENDRECV || (line->word >= W_RECV && line->word <= W_MPROBE); }

/* Lets a receive or probe find a message, of the rank that the recording tells, or of any that it may find. */
static int find_message(int rank, struct line *line, const struct call *call) {
    int both = line->word == W_SENDRECV, from = both ? line->peer2 : line->peer, tag = both ? line->tag2 : line->tag;
    int probes = line->word == W_PROBE;
    if (from != ANY) return take(queue_of(from, rank, line->comm), tag, probes);
    if (call->found >= 0) return take(queue_of(call->found, rank, line->comm), call->found_tag, probes);
    for (int s = 0; s < rank_count; s++)
        if (take(queue_of(s, rank, line->comm), tag, probes)) return 1;
    return 0;
}

/* Issues a line: a message is there from now on, and a receive looks for one. */
static void issue(int rank, struct line *line) {
    if (is_send(line)) push(queue_of(rank, line->peer, line->comm), line);
    if (is_receive(line)) push(receives[rank], line);
}

static void find_messages(int rank) {
    struct queue *queue = receives[rank];
    int kept = 0;
    for (int i = 0; i < queue->count; i++) {
        struct line *line = queue->at[i];
        if (find_message(rank, line, line->call))
            line->received = 1;
        else
            queue->at[kept++] = line;
    }
    queue->count = kept;
}

static struct line *line_of_name(int rank, int name) {
    for (int i = lines[rank].count; i-- > 0;) {
        struct line *line = lines[rank].at + i;
        int starts = line->word == W_ISEND || line->word == W_ISSEND || line->word == W_IBSEND || line->word == W_IRECV || line->word == W_IMRECV;
        if (starts && line->name == name) return line;
    }
    return NULL;
}

/* Whether a call in its line can return: no standard send is buffered, since the rank stands in it. */
static int is_done(int rank, const struct line *line) {
    switch (line->word) {
    case W_SEND:
    case W_SSEND: return line->done;
    case W_RECV:
    case W_PROBE:
    case W_MPROBE: return line->received;
    case W_SENDRECV: return line->done && line->received;
    case W_WAIT:
        for (int i = 0; i < line->count; i++) {
            const struct line *start = line_of_name(rank, line->list[i]);
            if (!start) continue;
            if ((start->word == W_ISEND || start->word == W_ISSEND) && !start->done) return 0;
            if (start->word == W_IRECV && !start->received) return 0;
        }
        return 1;
    default: return 1;
    }
}

/* Of each rank the next line of the call that it stands in, and the line behind. */
static int *at, *last;

/* All that has returned is done; of the calls that ranks stand in nothing yet. */
static void begin_there(void) {
    at = zeros((size_t)rank_count, sizeof *at), last = zeros((size_t)rank_count, sizeof *last);
    receives = zeros((size_t)rank_count, sizeof *receives);
    for (int r = 0; r < rank_count; r++) {
        receives[r] = zeros(1, sizeof **receives);
        last[r] = lines[r].count - lines[r].added;
        at[r] = last[r];
        while (is_open(ranks + r) && at[r] && lines[r].at[at[r] - 1].call == last_call(ranks + r)) at[r]--;
        for (int i = 0; i < at[r]; i++)
            if (is_send(lines[r].at + i)) issue(r, lines[r].at + i);
    }
    for (int r = 0; r < rank_count; r++)
        for (int i = 0; i < at[r]; i++)
            if (is_receive(lines[r].at + i) && lines[r].at[i].word != W_PROBE) push(receives[r], lines[r].at + i);
}

/* Goes on in all calls that ranks stand in, as far as they can. Gives whether something moved. */
static int go_on(void) {
    int moved = 0;
    for (int r = 0; r < rank_count; r++) {
        find_messages(r);
        while (at[r] < last[r]) {
            struct line *line = lines[r].at + at[r];
            if (!line->issued) issue(r, line), line->issued = 1, moved = 1;
            find_messages(r);
            if (!is_done(r, line)) break;
            at[r]++, moved = 1;
        }
    }
    return moved;
}

static int all_stand_in_calls(void) {
    for (int r = 0; r < rank_count; r++) {
        const struct rank *rank = ranks + r;
        if (is_open(rank) && (!rank->count || !strcmp(where(rank), "behind"))) return 0;
    }
    return 1;
}

static int is_stuck(void) {
    if (!all_stand_in_calls()) return 0;
    begin_there();
    while (go_on()) {}
    for (int r = 0; r < rank_count; r++)
        if (is_open(ranks + r) && at[r] == last[r]) return 0;
    return 1;
}

/* Before anything is made smaller. */
void find_end(void) {
    int open = 0, cut = 0, marks = 0;
    for (int r = 0; r < rank_count; r++) open |= is_open(ranks + r), cut |= ranks[r].cut, marks |= ranks[r].marks;
    if (end == E_CRASHED || end == E_AT_A_CUT) return;
    if (cut)
        end = E_CUT_OFF;
    else if (marks)
        end = E_MARKS;
    else if (open)
        end = is_stuck() ? E_HUNG : E_CUT_OFF;
}

void end_at_cut(void) { end = E_AT_A_CUT; }

/* 1 where the run hung, and 2 where what is recorded isn't all that the program does. */
int status_of_end(void) { return end == E_HUNG ? 1 : end == E_CUT_OFF || end == E_CRASHED ? 2 : 0; }

static void put_last_call(FILE *map, int r) {
    const struct rank *rank = ranks + r;
    const struct call *call = last_call(rank);
    if (!call)
        fprintf(map, "before its first call\n");
    else
        fprintf(map, "%s %s, %s%s\n", rank->cut ? "behind" : where(rank), call->function, words_of(rank, call), callers_of(rank, call));
}

/* The members that never came to a collective call. */
static void put_missing(FILE *map, const struct instance *instance) {
    for (int i = 0; i < instance->group->size; i++) {
        if (instance->calls[i]) continue;
        fprintf(map, "text missing: rank %d in collective %d of %s, %s; it is ", instance->group->members[i], instance->number + 1,
                instance->group->name, instance->function);
        put_last_call(map, instance->group->members[i]);
    }
}

/* Where the ranks stand that didn't end. Gives how many of them there are beyond those that are told. */
static int put_open(FILE *file, int most) {
    int open = 0;
    for (int r = 0; r < rank_count; r++) {
        if (!is_open(ranks + r) && !ranks[r].cut) continue;
        if (open++ >= most) continue;
        fprintf(file, "text open: rank %d, ", r);
        put_last_call(file, r);
    }
    return open > most ? open - most : 0;
}

#define MOST_TOLD 8

void tell_end(void) {
    if (end == E_FINISHED) return;
    printf("text ends: %s\n", end_words[end]);
    int more = end == E_AT_A_CUT || end == E_MARKS ? 0 : put_open(stdout, MOST_TOLD);
    if (more) printf("text open: and %d ranks more\n", more);
}

void put_end(FILE *map, int phase) {
    if (phase >= 0 && phase + 1 < phase_count) {
        fprintf(map, "text ends: %s\n", end_words[E_AT_A_CUT]);
        return;
    }
    fprintf(map, "text ends: %s\n", end_words[end]);
    if (end == E_AT_A_CUT || end == E_MARKS) return;
    put_open(map, rank_count);
    for (int g = 0; g < group_count; g++)
        for (int k = 0; k < groups[g]->instance_count; k++)
            if (groups[g]->instances[k]->arrived < groups[g]->size) put_missing(map, groups[g]->instances[k]);
}
