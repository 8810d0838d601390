/* Collective calls: which calls of the ranks belong together, and the sends and receives that stand for them. */
#include "convert.h"

#include <stdlib.h>
#include <string.h>

int instance_count;

/* The next instance of a communicator, or the one that another member has made already. */
static struct instance *instance_of(struct group *group, const struct call *call, int number) {
    if (number < group->instance_count) return group->instances[number];
    struct instance *made = zeros(1, sizeof *made);
    made->group = group;
    made->number = number;
    made->kind = call->kind;
    made->function = call->function;
    made->nonblocking = call->op == OP_ICOLL;
    made->root = call->root;
    made->calls = zeros((size_t)group->size, sizeof *made->calls);
    made->tag = instance_count++;
    made->whole = group->size == rank_count;
    if (!(number & (number - 1))) group->instances = room(group->instances, sizeof *group->instances * (size_t)(number ? number * 2 : 1));
    group->instances[group->instance_count++] = made;
    return made;
}

struct root_words {
    char text[40];
};

static struct root_words root_words(int root) {
    struct root_words words = {""};
    if (root >= 0) snprintf(words.text, sizeof words.text, " with root %d", root);
    return words;
}

/* The first member whose call is there, but for this one. */
static int first_member(const struct instance *instance, const struct call *but) {
    int first = 0;
    while (!instance->calls[first] || instance->calls[first] == but) first++;
    return first;
}

static _Noreturn void tell_mismatch(const struct instance *instance, int rank, const struct call *call) {
    int first = first_member(instance, call), other_rank = instance->group->members[first];
    const struct call *other = instance->calls[first];
    fail(1, "collective mismatch: call %d on communicator %s is %s%s in rank %d (%s), and %s%s in rank %d (%s)", instance->number + 1,
         instance->group->name, other->function, root_words(instance->root).text, other_rank, place_of(ranks + other_rank, other), call->function,
         root_words(call->root).text, rank, place_of(ranks + rank, call));
}

/* A member that ended, and of which all calls were recorded, never comes. */
static void look_for_absent(const struct instance *instance) {
    for (int i = 0; i < instance->group->size && instance->arrived < instance->group->size; i++) {
        int absent = instance->group->members[i], first = first_member(instance, NULL), other = instance->group->members[first];
        if (instance->calls[i] || !ranks[absent].ended || ranks[absent].cut || ranks[absent].marks || ranks[other].marks) continue;
        fail(1, "collective mismatch: call %d on communicator %s is %s%s in rank %d (%s), and rank %d ended without it", instance->number + 1,
             instance->group->name, instance->calls[first]->function, root_words(instance->root).text, other,
             place_of(ranks + other, instance->calls[first]), absent);
    }
}

static void gather_call(int r, struct call *call) {
    struct comm *comm = ranks[r].comms + call->comm;
    struct instance *instance = instance_of(comm->group, call, comm->collectives++);
    call->instance = instance;
    instance->calls[place_in(comm->group, r)] = call;
    instance->arrived++;
    if (instance->kind != call->kind || instance->nonblocking != (call->op == OP_ICOLL) || instance->root != call->root)
        tell_mismatch(instance, r, call);
}

void gather_instances(void) {
    for (int r = 0; r < rank_count; r++)
        for (int i = 0; i < ranks[r].count; i++) {
            struct call *call = ranks[r].calls + i;
            int collective = (call->op == OP_COLL || call->op == OP_ICOLL) && !call->dropped && !call->wrong;
            if (collective && group_of(ranks + r, call)) gather_call(r, call);
        }
    for (int g = 0; g < group_count; g++)
        for (int k = 0; k < groups[g]->instance_count; k++) look_for_absent(groups[g]->instances[k]);
}

/* What MPI guarantees at least: which member can't leave before which others have come. */
enum form { F_UNKNOWN, F_NONE, F_ALL, F_FROM_ROOT, F_TO_ROOT, F_CHAIN, F_PAIRS };

/* Of collectives without a root whose ranks don't have something from each: by whom that is told. */
enum teller { T_TAKER, T_GIVER, T_SOURCES };

/* The numbers of kinds are those of docs/COLLECTIVES.md, by which messages of different kinds have different tags; others count as
   barriers. */

static const struct {
    const char *name;
    int number;
    enum form form;
    enum teller teller;
} kinds[] = {{"Barrier", 0, F_PAIRS, T_TAKER},     {"Bcast", 1, F_FROM_ROOT, T_TAKER},    {"Reduce", 2, F_TO_ROOT, T_TAKER},
             {"Allreduce", 3, F_PAIRS, T_TAKER},   {"Gather", 4, F_TO_ROOT, T_TAKER},     {"Gatherv", 4, F_TO_ROOT, T_TAKER},
             {"Scatter", 5, F_FROM_ROOT, T_TAKER}, {"Scatterv", 5, F_FROM_ROOT, T_TAKER}, {"Allgather", 6, F_PAIRS, T_GIVER},
             {"Allgatherv", 6, F_PAIRS, T_GIVER},  {"Alltoall", 7, F_PAIRS, T_TAKER},     {"Alltoallv", 7, F_PAIRS, T_SOURCES},
             {"Alltoallw", 7, F_PAIRS, T_SOURCES}, {"Scan", 8, F_CHAIN, T_TAKER},         {"Exscan", 8, F_CHAIN, T_TAKER},
             {"Neighbor_allgather", 0, F_PAIRS, T_SOURCES}, {"Neighbor_allgatherv", 0, F_PAIRS, T_SOURCES},
             {"Neighbor_alltoall", 0, F_PAIRS, T_SOURCES}, {"Neighbor_alltoallv", 0, F_PAIRS, T_SOURCES},
             {"Neighbor_alltoallw", 0, F_PAIRS, T_SOURCES}};
static const size_t kind_count = sizeof kinds / sizeof *kinds;

static void find_kind(struct instance *instance) {
    size_t k = 0;
    while (k < kind_count && strcmp(kinds[k].name, instance->kind)) k++;
    instance->usual = k < kind_count ? kinds[k].form : F_PAIRS;
    instance->teller = k < kind_count ? kinds[k].teller : T_TAKER;
    instance->kind_number = k < kind_count ? kinds[k].number : 0;
}

/* A member that never came is taken as one that has something to give. */
static long bytes_at(const struct instance *instance, int i) { return instance->calls[i] ? instance->calls[i]->bytes : 1; }

/* Where calls name their sources: each call's list gets them once each, without its own, in the order of the members, and takers_of[j]
   is where in `takers` the members begin that take something from member j. Gives how many pairs there are. */
static int find_pairs(struct instance *instance) {
    const struct group *group = instance->group;
    int size = group->size, pairs = 0, *from = zeros((size_t)size + 1, sizeof(int)), *last = zeros((size_t)size, sizeof(int));
    for (int i = 0; i < size; i++) {
        struct call *call = instance->calls[i];
        int kept = 0;
        for (int k = 0; call && k < call->count; k++) {
            int j = place_in(group, call->list[k]);
            if (j == i || last[j] == i + 1) continue;
            last[j] = i + 1;
            call->list[kept++] = call->list[k];
            from[j + 1]++;
        }
        if (call) call->count = kept;
        pairs += kept;
    }
    for (int j = 0; j < size; j++) from[j + 1] += from[j], last[j] = from[j];
    instance->takers_of = from;
    instance->takers = room(NULL, sizeof(int) * (size_t)pairs);
    for (int i = 0; i < size; i++) {
        struct call *call = instance->calls[i];
        for (int k = 0; call && k < call->count; k++) instance->takers[last[place_in(group, call->list[k])]++] = i;
        if (call) call->count = 0;
    }
    for (int j = 0; j < size; j++)
        for (int k = from[j]; k < from[j + 1]; k++) {
            struct call *taker = instance->calls[instance->takers[k]];
            taker->list[taker->count++] = group->members[j];
        }
    free(last);
    return pairs;
}

static enum form form_of_pairs(struct instance *instance) {
    int size = instance->group->size, some = 0;
    if (instance->teller == T_SOURCES) {
        int pairs = find_pairs(instance);
        return !pairs ? F_NONE : pairs == size * (size - 1) ? F_ALL : F_PAIRS;
    }
    for (int i = 0; i < size; i++) some += bytes_at(instance, i) > 0;
    return !some ? F_NONE : some == size ? F_ALL : F_PAIRS;
}

static enum form form_of(struct instance *instance) {
    if (instance->form != F_UNKNOWN) return (enum form)instance->form;
    find_kind(instance);
    enum form form = (enum form)instance->usual;
    if (instance->group->size < 2)
        form = F_NONE;
    else if (options.most)
        form = F_ALL;
    else if (form == F_CHAIN)
        form = bytes_at(instance, 0) > 0 ? F_CHAIN : F_NONE;
    else if (form == F_PAIRS)
        form = form_of_pairs(instance);
    instance->form = (int)form;
    return form;
}

int is_full(struct instance *instance) {
    return instance->arrived == instance->group->size && !instance->nonblocking && (form_of(instance) == F_ALL || instance->group->size == 1);
}

static int with_bytes(const struct instance *instance, int from, int to, int but, int *found) {
    int count = 0;
    for (int i = from; i < to; i++)
        if (i != but && bytes_at(instance, i) > 0) found[count++] = instance->group->members[i];
    return count;
}

static int all_but(const struct instance *instance, int from, int to, int but, int *found) {
    int count = 0;
    for (int i = from; i < to; i++)
        if (i != but) found[count++] = instance->group->members[i];
    return count;
}

static int named(const struct instance *instance, int me, int sources, int *found) {
    const struct call *call = instance->calls[me];
    int from = instance->takers_of[me], count = sources ? call->count : instance->takers_of[me + 1] - from;
    for (int k = 0; k < count; k++) found[k] = sources ? call->list[k] : instance->group->members[instance->takers[from + k]];
    return count;
}

/* The ranks that member `me` takes something from, or that take something from it. */
static int others(const struct instance *instance, int me, int sources, int *found) {
    const struct group *group = instance->group;
    int size = group->size, has = bytes_at(instance, me) > 0, is_root = group->members[me] == instance->root;
    if (options.most) return all_but(instance, 0, size, me, found);
    switch (instance->usual) {
    case F_FROM_ROOT:
    case F_TO_ROOT:
        if (is_root) return (instance->usual == F_TO_ROOT) == sources ? with_bytes(instance, 0, size, me, found) : 0;
        found[0] = instance->root;
        return (instance->usual == F_FROM_ROOT) == sources && has;
    case F_CHAIN:
        if (!sources) return with_bytes(instance, me + 1, size, me, found);
        return has ? all_but(instance, 0, me, me, found) : 0;
    default:
        if (instance->teller == T_SOURCES) return named(instance, me, sources, found);
        if ((instance->teller == T_TAKER) != sources) return with_bytes(instance, 0, size, me, found);
        return has ? all_but(instance, 0, size, me, found) : 0;
    }
}

static int compare(const void *one, const void *other) { return *(const int *)one - *(const int *)other; }

static void message(int rank, enum word word, struct call *call, int peer, int round) {
    struct line *line = add_line(rank, word, call);
    line->peer = peer;
    line->tag = 2 * call->instance->tag + round;
}

/* A rank tells those that take something from it, and waits for those from whom it takes something. */
static void exchange(int rank, struct call *call, int me) {
    int *found = room(NULL, sizeof(int) * (size_t)call->instance->group->size);
    for (int k = 0, count = others(call->instance, me, 0, found); k < count; k++) message(rank, W_BSEND, call, found[k], 0);
    for (int k = 0, count = others(call->instance, me, 1, found); k < count; k++) message(rank, W_RECV, call, found[k], 0);
    free(found);
}

static void start_exchange(int rank, struct call *call, int me) {
    int *found = room(NULL, sizeof(int) * (size_t)call->instance->group->size);
    for (int k = 0, count = others(call->instance, me, 0, found); k < count; k++) message(rank, W_BSEND, call, found[k], 0);
    call->part_count = others(call->instance, me, 1, found);
    call->parts = found;
    for (int k = 0; k < call->part_count; k++) {
        message(rank, W_IRECV, call, found[k], 0);
        lines[rank].at[lines[rank].count - 1].name = found[k] = fresh_part(rank);
    }
}

/* What the root does in each of two rounds, and what the others do with it. */
static const enum word rounds[][2][2] = {[F_ALL] = {{W_RECV, W_BSEND}, {W_BSEND, W_RECV}},
                                         [F_FROM_ROOT] = {{W_SEND, W_BSEND}, {W_RECV, W_RECV}},
                                         [F_TO_ROOT] = {{W_RECV, W_RECV}, {W_BSEND, W_SEND}}};

/* Those who have no bytes take no part in what has a root. */
static void root_form(int rank, struct call *call, int me, enum form form) {
    const struct instance *instance = call->instance;
    const struct group *group = instance->group;
    int root = instance->root < 0 ? group->lowest : instance->root, size = group->size, count = 1;
    int *peers = room(NULL, sizeof(int) * (size_t)size);
    if (rank != root)
        peers[0] = root, count = form == F_ALL || bytes_at(instance, me) > 0;
    else if (form == F_ALL)
        count = all_but(instance, 0, size, me, peers);
    else
        count = with_bytes(instance, 0, size, me, peers);
    if (!group->rises) qsort(peers, (size_t)count, sizeof *peers, compare);
    for (int round = 0; round < 2; round++)
        for (int k = 0; k < count; k++) message(rank, rounds[form][rank != root][round], call, peers[k], round);
    free(peers);
}

static void chain_form(int rank, struct call *call, int me) {
    const struct group *group = call->instance->group;
    if (me) message(rank, W_RECV, call, group->members[me - 1], 0);
    if (me + 1 < group->size) {
        message(rank, W_BSEND, call, group->members[me + 1], 0);
        message(rank, W_SEND, call, group->members[me + 1], 1);
    }
    if (me) message(rank, W_RECV, call, group->members[me - 1], 1);
}

void add_form(int rank, struct call *call) {
    struct instance *instance = call->instance;
    int me = place_in(instance->group, rank);
    enum form form = form_of(instance);
    if (instance->nonblocking) {
        if (form != F_NONE) start_exchange(rank, call, me);
        return;
    }
    switch (form) {
    case F_ALL:
    case F_FROM_ROOT:
    case F_TO_ROOT: root_form(rank, call, me, form); break;
    case F_CHAIN: chain_form(rank, call, me); break;
    case F_PAIRS: exchange(rank, call, me); break;
    default: break;
    }
}
