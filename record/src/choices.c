/* The choices of a path: the calls whose outcome the program could see, for the driver that runs it again with other ones. */
#include "convert.h"

#include <stdio.h>
#include <stdlib.h>
#include <string.h>

static int is_wait(const struct call *call) { return call->op == OP_ANY || call->op == OP_POLLS; }

static int is_last(const struct rank *rank, int i) { return i + 1 == rank->count && !rank->ended && !rank->aborted; }

/* The call as which the success of a poll, or of a wait for any, stands in the text. */
static enum operation settled(enum operation op) {
    switch (op) {
    case OP_IPROBE: return OP_PROBE;
    case OP_IMPROBE: return OP_MPROBE;
    default: return OP_WAIT;
    }
}

/* A poll that failed, or a wait for any, without success: it has no line, but where the rank stands in it. Of what waits for nothing
   that is known it isn't known what came of it. */
static void settle_open(int r, int i) {
    struct rank *rank = ranks + r;
    struct call *call = rank->calls + i;
    int probes = strstr(call->function, "probe") != NULL, known = probes || call->count;
    if (known && is_last(rank, i))
        call->op = probes ? OP_PROBE : OP_WAIT, call->stands = 1;
    else if (known && call->op == OP_POLLS)
        call->dropped = 1;
    else
        call->op = OP_OTHER;
}

/* The call that began a poll or a wait for any that now succeeded, from 1, or 0. It stands in the row that ends there. */
static int find_opened(const struct rank *rank, int i) {
    for (int k = i - 1; k >= 0 && is_wait(rank->calls + k); k--)
        if (rank->calls[k].choice == rank->calls[i].choice) return k + 1;
    return 0;
}

void settle_choices(int r) {
    struct rank *rank = ranks + r;
    for (int i = 0; i < rank->count; i++) {
        struct call *call = rank->calls + i;
        int polls = call->op == OP_TOOK || call->op == OP_IPROBE || call->op == OP_IMPROBE;
        if (call->dropped) call->choice = 0;  /* a test that is left out */
        if (!polls || !call->choice || !(call->opened = find_opened(rank, i))) continue;
        struct call *from = rank->calls + call->opened - 1;
        call->spins |= from->spins, call->again |= from->again;
        call->op = (unsigned char)settled(call->op);
        from->dropped = 1;
    }
    for (int i = 0; i < rank->count; i++)
        if (is_wait(rank->calls + i) && rank->calls[i].choice && !rank->calls[i].dropped) settle_open(r, i);
}

/* ---- the file ---- */

static const char *kind_of(const struct call *call) {
    static const char *const kinds[][2] = {{"MPI_Waitany", "any"}, {"MPI_Waitsome", "some"}, {"MPI_Test", "test"},
                                           {"MPI_Testany", "testany"}, {"MPI_Testsome", "testsome"}, {"MPI_Testall", "testall"},
                                           {"MPI_Iprobe", "probe"}, {"MPI_Improbe", "probe"}};
    for (size_t i = 0; i < sizeof kinds / sizeof *kinds; i++)
        if (!strcmp(call->function, kinds[i][0])) return kinds[i][1];
    return "source";
}

/* The lines of a rank's calls rise with them, but for those that were added at the end. */
static int first_line(int r, const struct call *call) {
    int low = 0, high = lines[r].count - lines[r].added;
    while (low < high) {
        int middle = (low + high) / 2;
        if (lines[r].at[middle].call < call)
            low = middle + 1;
        else
            high = middle;
    }
    return low;
}

static int has_line(int r, int i, const struct call *call) { return i < lines[r].count && lines[r].at[i].call == call; }

static void put_place(FILE *file, int r, const struct call *call, long behind) {
    int i = first_line(r, call), mine = has_line(r, i, call);
    long number = i < lines[r].count ? lines[r].at[i].number : behind;
    fprintf(file, " %s %ld\n", mine ? "at" : "before", number);
}

/* The requests that were waited for, each with the lines of what it stands for. */
static void put_options(FILE *file, int r, const struct call *from) {
    const struct rank *rank = ranks + r;
    for (int k = 0; k < from->count; k++) {
        int id = from->list[k];
        if (id <= 0 || id > rank->most_request || !rank->starts[id]) continue;
        const struct call *start = rank->calls + rank->starts[id] - 1;
        fprintf(file, "option %d", id);
        for (int i = first_line(r, start); has_line(r, i, start) && !start->unwaited; i++)
            if (lines[r].at[i].word != W_BSEND) fprintf(file, " %ld", lines[r].at[i].number);
        fprintf(file, "\n");
    }
}

static void put_envelope(FILE *file, const char *word, int comm, int source, int tag) {
    fprintf(file, "%s %d", word, comm);
    fprintf(file, source == ANY ? " *" : " %d", source);
    fprintf(file, tag == ANY ? " *\n" : " %d\n", tag);
}

static void put_value(FILE *file, struct text *text, const struct call *call, const char *kind) {
    int source = !strcmp(kind, "source"), probe = !strcmp(kind, "probe");
    if (call->stands || (source && call->found == WRONG))
        fprintf(file, "value none\n");
    else if (call->dropped && !source)
        fprintf(file, "value failed\n");
    else if (source || (probe && call->found != WRONG))
        fprintf(file, "value found %d %d %d\n", call->found, call->found_tag, tag_in_text(text, call->found_tag));
    else if (probe)
        fprintf(file, "value found %d %d %d\n", call->peer, call->tag, tag_in_text(text, call->tag));
    else {
        fprintf(file, "value took");
        for (int k = 0; k < call->count; k++) fprintf(file, " %d", call->list[k]);
        fprintf(file, "\n");
    }
    if (call->spins) fprintf(file, "spins\n");
    if (call->again) fprintf(file, "again\n");
}

static void put_choice(FILE *file, struct text *text, int r, const struct call *call, long behind) {
    const struct rank *rank = ranks + r;
    const struct call *from = call->opened ? rank->calls + call->opened - 1 : call;
    const struct group *group = group_of(rank, from);
    const char *kind = kind_of(from);
    fprintf(file, "choice %d %d %s", r, call->choice, kind);
    put_place(file, r, call, behind);
    int tag = from->tag < 0 ? from->tag : tag_in_text(text, from->tag);
    if (!strcmp(kind, "probe") && group) put_envelope(file, "pattern", comm_in_text(text, group->name), from->peer, tag);
    put_options(file, r, from);
    put_value(file, text, call, kind);
    fprintf(file, "site %s, %s%s\n", from->function, words_of(rank, from), callers_of(rank, from));
}

/* Those that were begun only, and succeeded later, are told where they did. */
static int is_told(const struct rank *rank, int i) {
    const struct call *call = rank->calls + i;
    if (!call->choice || call->error) return 0;
    if (!call->dropped) return 1;
    if (call->op != OP_POLLS) return 0;
    for (int k = i + 1; k < rank->count; k++)
        if (rank->calls[k].opened == i + 1) return 0;
    return 1;
}

void write_choices(const char *name, struct text *text) {
    char path[4096];
    snprintf(path, sizeof path, "%s.choices", name);
    FILE *file = fopen(path, "w");
    if (!file) fail(5, "%s can't be written", path);
    fprintf(file, "choices 1\n");
    for (int r = 0; r < rank_count; r++) {
        long behind = lines[r].count ? lines[r].at[lines[r].count - 1].number + 1 : 1;
        for (int i = 0; i < ranks[r].count; i++)
            if (is_told(ranks + r, i)) put_choice(file, text, r, ranks[r].calls + i, behind);
        fprintf(file, "rank %d %s\n", r, ranks[r].ended ? "ended" : "open");
    }
    fprintf(file, "end\n");
    if (ferror(file) | fclose(file)) fail(5, "%s can't be written", path);
}
