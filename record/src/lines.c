/* From the calls of a rank to the lines of its text. */
#include "convert.h"

#include <stdlib.h>
#include <string.h>

struct lines *lines;
static int *parts;

size_t hash_of_message(int from, int to, int tag, const char *comm) {
    size_t hash = (size_t)comm;
    hash = (hash ^ (size_t)(unsigned)from) * 0x9E3779B97F4A7C15u;
    hash = (hash ^ hash >> 29 ^ (size_t)(unsigned)to) * 0x9E3779B97F4A7C15u;
    hash = (hash ^ hash >> 29 ^ (size_t)(unsigned)tag) * 0x9E3779B97F4A7C15u;
    return hash ^ hash >> 31;
}

struct line *add_line(int rank, enum word word, struct call *call) {
    struct lines *of = lines + rank;
    if (of->count == of->room) {
        of->room = of->room * 2 + 256;
        of->at = room(of->at, sizeof *of->at * (size_t)of->room);
    }
    struct line *line = of->at + of->count++;
    memset(line, 0, sizeof *line);
    line->word = word;
    line->call = call;
    return line;
}

int fresh_part(int rank) { return ranks[rank].most_request + ++parts[rank]; }

int names_of(int rank) { return ranks[rank].most_request + parts[rank] + 2; }

void start_lines(void) {
    lines = zeros((size_t)rank_count, sizeof *lines);
    if (!parts) parts = zeros((size_t)rank_count, sizeof *parts);
}

static struct call *start_of(const struct rank *rank, int id) {
    return id <= rank->most_request && rank->starts[id] ? rank->calls + rank->starts[id] - 1 : NULL;
}

static const enum word blocking_words[] = {W_SEND, W_SSEND, W_BSEND, W_SEND};
static const enum word starting_words[] = {W_ISEND, W_ISSEND, W_IBSEND, W_ISEND};
static int mode_of(const struct call *call) { return (int)(strchr("tsbr", call->mode) - "tsbr"); }

static struct line *envelope(int rank, enum word word, struct call *call) {
    struct line *line = add_line(rank, word, call);
    line->name = call->id;
    line->peer = call->peer;
    line->tag = call->tag;
    line->comm = group_of(ranks + rank, call)->name;
    return line;
}

static void add_waits(int rank, struct call *call, const int *ids, int count) {
    int *list = NULL, kept = 0, most = 0;
    for (int i = 0; i < count; i++) {
        const struct call *start = start_of(ranks + rank, ids[i]);
        int many = start && start->op == OP_ICOLL ? start->part_count : 1;
        if (kept + many > most) list = room(list, sizeof(int) * (size_t)(most = most * 2 + many + count - i));
        if (start && start->op == OP_ICOLL)
            for (int k = 0; k < many; k++) list[kept++] = start->parts[k];
        else
            list[kept++] = ids[i];
    }
    if (!kept) {
        free(list);
        return;
    }
    struct line *line = add_line(rank, W_WAIT, call);
    line->list = list;
    line->count = kept;
}

static void add_send(int rank, struct call *call) {
    if (call->peer == NOBODY) return;
    if (call->op == OP_SEND)
        envelope(rank, blocking_words[mode_of(call)], call);
    else if (!call->unwaited)
        envelope(rank, starting_words[mode_of(call)], call);
    else
        envelope(rank, W_BSEND, call)->remark = call->freed ? "its request is freed, so nothing waits for it" : "nothing waited for it";
}

static void add_handled_receive(int rank, enum word word, struct call *call, int handle) {
    struct line *line = add_line(rank, word, call);
    line->of = handle;
    line->name = call->id;
}

static void add_receive(int rank, struct call *call) {
    if (call->peer == NOBODY) return;
    if (call->message)
        add_handled_receive(rank, call->op == OP_RECV ? W_MRECV : W_IMRECV, call, call->message);
    else
        envelope(rank, call->op == OP_RECV ? W_RECV : W_IRECV, call);
}

static void add_send_receive(int rank, struct call *call) {
    if (call->peer2 == NOBODY) {
        if (call->peer != NOBODY) envelope(rank, W_SEND, call);
        return;
    }
    struct line *line = envelope(rank, call->peer == NOBODY ? W_RECV : W_SENDRECV, call);
    if (call->peer == NOBODY) {
        line->peer = call->peer2;
        line->tag = call->tag2;
    } else {
        line->peer2 = call->peer2;
        line->tag2 = call->tag2;
    }
}

static void add_probe(int rank, struct call *call) {
    if (call->peer == NOBODY) return;
    struct line *line = envelope(rank, call->message ? W_MPROBE : W_PROBE, call);
    if (call->message) line->name = call->message;
}

static void add_call(int rank, struct call *call) {
    switch (call->op) {
    case OP_SEND:
    case OP_ISEND: add_send(rank, call); break;
    case OP_RECV:
    case OP_IRECV: add_receive(rank, call); break;
    case OP_SENDRECV: add_send_receive(rank, call); break;
    case OP_PROBE: add_probe(rank, call); break;
    case OP_MPROBE:
        if (call->peer != NOBODY) envelope(rank, W_MPROBE, call);
        break;
    case OP_MRECV:
    case OP_IMRECV:
        if (call->of > 0) add_handled_receive(rank, call->op == OP_MRECV ? W_MRECV : W_IMRECV, call, call->of);
        break;
    case OP_WAIT:
    case OP_TOOK: add_waits(rank, call, call->list, call->count); break;
    case OP_COLL:
    case OP_ICOLL: add_form(rank, call); break;
    default: break;
    }
}

/* What is held at the end gets a line that ends it, since a text has one for each start. */
static void add_end(int rank, int id, struct call *start) {
    int before = lines[rank].count;
    if (start->op == OP_IRECV || start->op == OP_ICOLL || (start->op == OP_IMRECV && start->of > 0))
        add_waits(rank, start, &id, 1);
    else if (start->op == OP_MPROBE)
        add_line(rank, W_MRECV, start)->of = id;
    if (lines[rank].count == before) return;
    lines[rank].at[before].remark = "ADDED: nothing waited for it before the recording ended";
    lines[rank].added++;
    note("line added at the end of rank %d: %s in %s was not waited for; a deadlock of which this line is a part may be none of the program's", rank,
         start->function, place_of(ranks + rank, start));
}

void add_lines(int r) {
    struct rank *rank = ranks + r;
    for (int i = 0; i < rank->count; i++)
        if (!rank->calls[i].dropped) add_call(r, rank->calls + i);
    for (int id = 1; id <= rank->most_request; id++) {
        struct call *start = start_of(rank, id);
        if (start && start - rank->calls < rank->count && start->unwaited && !start->dropped && start->peer != NOBODY) add_end(r, id, start);
    }
}
