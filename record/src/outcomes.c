/* Outcomes that a program can see: what a wildcard finds, which requests a wait takes, whether a poll succeeds; and forced ones.

   Where RECORD_OUTCOMES names a file, `choice N` behind the line of a call that has such an outcome tells its number: 64, 128 and so on, and
   for polls in a row the numbers behind the first one's; so later numbers don't depend on how many of them were made. A line of the file
   forces one: RANK N, and `found SOURCE TAG` (a rank of the whole program), `took NAME ..` (of requests) or `failed`.

   What is forced is waited for before the call, without being taken; then the call is carried out on that alone, so it has no other
   outcome. A poll that has to fail is carried out on a request or a communicator of our own, on which nothing comes; so the library
   goes on with all else. */
#define _GNU_SOURCE
#include "recorder.h"

#include <sched.h>
#include <stdio.h>
#include <stdlib.h>
#include <string.h>
#include <time.h>

#define IN_A_ROW 64

/* A poll is made to fail so often, and so long, before it is let go: then the program only waits for it. */
#define STUBBORN 100
#define STUBBORN_NANOSECONDS 20000000L

struct forced {
    int choice, count, *values, fails, times, spins;
    long since;
};
static struct forced *forced;
static int forced_count, rows, is_on;

int outcomes_on(void) { return is_on; }

static void read_forced(int rank, char *text) {
    int of, choice, at = 0;
    char word[8] = "";
    if (sscanf(text, "%d %d %7s%n", &of, &choice, word, &at) < 3 || of != rank) return;
    forced = room(forced, sizeof *forced * (size_t)(forced_count + 1));
    struct forced *one = forced + forced_count++;
    *one = (struct forced){.choice = choice, .fails = !strcmp(word, "failed")};
    for (char *from = text + at, *end;; from = end) {
        int value = (int)strtol(from, &end, 10);
        if (end == from) return;
        one->values = room(one->values, sizeof(int) * (size_t)(one->count + 1));
        one->values[one->count++] = value;
    }
}

void read_outcomes(int rank) {
    const char *path = getenv("RECORD_OUTCOMES");
    if (!path || !*path) return;
    is_on = 1;
    FILE *file = fopen(path, "r");
    char *text = NULL;
    size_t size = 0;
    if (!file) {
        fprintf(stderr, "record: %s can't be read\n", path);
        _Exit(70);
    }
    while (getline(&text, &size, file) > 0) read_forced(rank, text);
    free(text);
    fclose(file);
}

int new_choice(int place) {
    if (!is_on) return 0;
    place %= IN_A_ROW;
    if (!place) rows++;
    tell_choice(rows * IN_A_ROW + place);
    return rows * IN_A_ROW + place;
}

void tell_choice(int choice) {
    if (choice) plain_line("choice %d", choice);
}

static struct forced *forced_of(int choice) {
    for (int i = 0; choice && i < forced_count; i++)
        if (forced[i].choice == choice) return forced + i;
    return NULL;
}

/* ---- what is found ---- */

static int number_in(const struct comm *comm, int world) {
    for (int i = 0; i < comm->size; i++)
        if (comm->members[i] == world) return i;
    return MPI_ANY_SOURCE;
}

void force_source(int choice, MPI_Comm handle, int *peer, int *tag) {
    const struct forced *one = forced_of(choice);
    if (!one || one->fails || one->count < 2) return;
    *peer = number_in(comm_of(handle), one->values[0]);
    *tag = one->values[1];
}

/* ---- polls ---- */

static long now(void) {
    struct timespec time;
    clock_gettime(CLOCK_MONOTONIC, &time);
    return time.tv_sec * 1000000000L + time.tv_nsec;
}

/* Whether the poll has to fail, which is told once it failed so often that the program seems to wait for it alone. */
static int has_to_fail(struct forced *one) {
    if (!one || !one->fails || one->spins) return 0;
    if (!one->times++) one->since = now();
    if (one->times <= STUBBORN || now() - one->since <= STUBBORN_NANOSECONDS) return 1;
    one->spins = 1;
    plain_line("spins %d", one->choice);
    return 0;
}

/* On it nothing is ever sent. */
static MPI_Comm nowhere = MPI_COMM_NULL;
static MPI_Request never = MPI_REQUEST_NULL;

static void make_nowhere(void) {
    if (nowhere == MPI_COMM_NULL) PMPI_Comm_dup(MPI_COMM_SELF, &nowhere);
}

void end_outcomes(void) {
    if (never != MPI_REQUEST_NULL) PMPI_Cancel(&never), PMPI_Request_free(&never);
    if (nowhere != MPI_COMM_NULL) PMPI_Comm_free(&nowhere);
}

void force_probe(int choice, MPI_Comm *handle, int *peer, int *tag) {
    struct forced *one = forced_of(choice);
    if (!one) return;
    if (has_to_fail(one)) {
        make_nowhere();
        *handle = nowhere, *peer = MPI_ANY_SOURCE, *tag = MPI_ANY_TAG;
    } else if (!one->fails) {
        force_source(choice, *handle, peer, tag);
        release();
        PMPI_Probe(*peer, *tag, *handle, MPI_STATUS_IGNORE);
        hold();
    }
}

/* ---- requests ---- */

/* The requests that the program gave, and those that the call is carried out on. */
static _Thread_local MPI_Request *given, *taken;
static _Thread_local const struct forced *forcing;

static int is_taken(const struct request *request) {
    int id = name_of(request);
    for (int i = 0; i < forcing->count; i++)
        if (forcing->values[i] == id) return 1;
    return id == NOTHING;
}

static void await(MPI_Request request) {
    for (int done = 0; !done; sched_yield()) PMPI_Request_get_status(request, &done, MPI_STATUS_IGNORE);
}

MPI_Request *force_requests(int choice, int *count, MPI_Request *requests, struct request **of) {
    struct forced *one = forced_of(choice);
    forcing = NULL;
    if (!one) return requests;
    if (has_to_fail(one)) {
        make_nowhere();
        if (never == MPI_REQUEST_NULL) PMPI_Irecv(NULL, 0, MPI_BYTE, MPI_ANY_SOURCE, MPI_ANY_TAG, nowhere, &never);
        *count = 1;
        return &never;
    }
    if (one->fails) return requests;
    forcing = one;
    given = requests;
    taken = room(taken, sizeof *taken * (size_t)(*count + 1));
    for (int i = 0; i < *count; i++) taken[i] = is_taken(of[i]) ? requests[i] : MPI_REQUEST_NULL;
    release();
    for (int i = 0; i < *count; i++)
        if (name_of(of[i]) != NOTHING && taken[i] != MPI_REQUEST_NULL) await(taken[i]);
    hold();
    return taken;
}

void end_forced(int count, struct request **of) {
    for (int i = 0; forcing && i < count; i++)
        if (is_taken(of[i])) given[i] = taken[i];
    forcing = NULL;
}
