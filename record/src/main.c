/* Makes the program text of all ranks, and its map, from the recordings of a run.

   usage: convert [OPTION ..] DIRECTORY NAME
   writes NAME.mpi and NAME.map, with --phases NAME.1.mpi, NAME.1.map and so on, with --outcomes NAME.choices; tells what it did on standard output.
   Exit status: 0 written; 1 a fault that the recordings show, or the run hung; 2 written, of a run that was cut off; 3 refused; 5 a file
   failed; 6 usage; 70 out of memory. */
#include "convert.h"

#include <stdio.h>
#include <stdlib.h>
#include <string.h>

struct options options = {.policy = "any", .run = RUN_UNKNOWN};

static _Noreturn void usage(void) {
    fprintf(stderr, "usage: convert [--policy any|none|all] [--collectives least|most] [--free-tests] [--this-run] [--leave-out] [--phases] "
                    "[--small] [--outcomes] [--run time|STATUS] DIRECTORY NAME\n");
    exit(6);
}

/* The word behind an option. */
static const char *word_behind(int *at, int count, char **words) {
    if (*at + 1 >= count) usage();
    return words[++*at];
}

static void take_policy(const char *word) {
    if (strcmp(word, "any") && strcmp(word, "none") && strcmp(word, "all")) usage();
    options.policy = word;
}

static void take_waiting(const char *word) {
    if (strcmp(word, "least") && strcmp(word, "most")) usage();
    options.most = !strcmp(word, "most");
}

/* How the run ended: its exit status, or `time` where it was ended from outside. */
static void take_run(const char *word) {
    char *end;
    options.run = strcmp(word, "time") ? (int)strtol(word, &end, 10) : RUN_TIME;
    if (options.run != RUN_TIME && (!*word || *end || options.run < 0)) usage();
}

/* Gives the place of the first word that is no option. */
static int take_options(int count, char **words) {
    const struct {
        const char *word;
        int *option;
    } flags[] = {{"--this-run", &options.this_run},   {"--free-tests", &options.free_tests}, {"--leave-out", &options.leave_out},
                 {"--phases", &options.phases}, {"--small", &options.small}, {"--outcomes", &options.outcomes}};
    int at = 1;
    for (; at < count && !strncmp(words[at], "--", 2); at++) {
        size_t k = 0;
        while (k < sizeof flags / sizeof *flags && strcmp(flags[k].word, words[at])) k++;
        if (k < sizeof flags / sizeof *flags)
            *flags[k].option = 1;
        else if (!strcmp(words[at], "--policy"))
            take_policy(word_behind(&at, count, words));
        else if (!strcmp(words[at], "--collectives"))
            take_waiting(word_behind(&at, count, words));
        else if (!strcmp(words[at], "--run"))
            take_run(word_behind(&at, count, words));
        else
            usage();
    }
    return at;
}

/* What a recording can't tell, and calls that failed. */
static void tell_rank(int r) {
    const struct rank *rank = ranks + r;
    int failed = 0;
    const struct call *first = NULL;
    if (rank->marks) note("rank %d was recorded between marks only", r);
    if (rank->moved)
        note("rank %d: %d times one handle stood for several sends that were complete at once, and it couldn't be seen which one is meant; the "
             "oldest was taken",
             r, rank->moved);
    for (int i = 0; i < rank->count; i++)
        if (rank->calls[i].error == NOT_BEGUN && !failed++) first = rank->calls + i;
    if (failed)
        note("rank %d: %d calls returned an error and are left out, since nothing was begun (first %s in %s: %s)", r, failed, first->function,
             place_of(rank, first), first->wrong);
}

/* The first call of each function that is left out. */
static void tell_left_out(void) {
    const char *told[100];
    int count = 0;
    for (int r = 0; r < rank_count; r++)
        for (int i = 0; i < ranks[r].count; i++) {
            const struct call *call = ranks[r].calls + i;
            int k = 0;
            if (call->op != OP_LEFT || !strcmp(call->function, "MPI_Comm_free")) continue;
            while (k < count && told[k] != call->function) k++;
            if (k < count || count == 100) continue;
            told[count++] = call->function;
            note("left out: %s in %s", call->function, place_of(ranks + r, call));
        }
}

static void cut_phases(void) {
    int cut = 0;
    for (int r = 0; r < rank_count; r++) cut |= ranks[r].cut;
    if (options.phases || cut) phase_count = find_cuts();
    if (cut && phase_count > 1) {
        leave_out_the_rest(--phase_count);
        end_at_cut();
    } else if (cut)
        note("the recordings end anywhere, and there is no cut: a deadlock in which a rank waits for a later call is none of the program");
}

int main(int count, char **words) {
    int at = take_options(count, words);
    if (at + 2 != count) usage();
    const char *name = words[at + 1];
    read_recordings(words[at]);
    find_places();
    gather_instances();
    look_at_ends();
    start_lines();
    look_for_refusals();
    tell_refusals();
    for (int r = 0; r < rank_count; r++) {
        settle_starts(r);
        join_probes(r);
        if (!options.outcomes) warn_of_paths(r);
        tell_rank(r);
    }
    leave_out_unmatched();
    tell_left_out();
    cut_phases();
    for (int r = 0; r < rank_count; r++) add_lines(r);
    find_end();
    if (options.small) make_small();
    write_text(name, -1, "");
    if (options.phases) write_phases(name, phase_count);
    return status_of_end();
}
