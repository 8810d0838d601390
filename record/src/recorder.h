/* What the parts of the recorder share: where lines go, and which names communicators, requests and messages have.

   Only the calls of MPI can be seen from outside of the library (all else is hidden): a program may have functions of the same names. */
#ifndef RECORDER_H
#define RECORDER_H

#include "calls.h"

#include <mpi.h>
#include <stddef.h>

/* A communicator that the rank has, with the ranks of the whole program that belong to it. */
struct comm {
    MPI_Comm handle;
    int id;          /* its name in the recording */
    int size;
    int rank;        /* this rank's own number in it */
    int *members;    /* world rank of each number */
    int children;    /* communicators that were made of it */
    int inter;       /* an intercommunicator, or one of which not all members belong to the program */
};

/* A request that the program holds. A start that has no partner (MPI_PROC_NULL) has the name 0. */
struct request {
    MPI_Request handle;
    const void *where;         /* the variable that the handle was stored in */
    int id;                    /* its name; 0: nothing to wait for */
    char kind;                 /* 'o' once, 'p' persistent */
    char send;                 /* persistent: the mode of the send, or 0 for a receive */
    struct comm *comm;         /* of a receive with a wildcard, and of all persistent ones; else NULL */
    int peer, tag;             /* persistent: the arguments */
    long bytes;
    long list;                 /* the last list of handles in which it was found */
};

#define NOTHING 0   /* the name of a request that needs no wait */
#define UNKNOWN (-1)  /* the name of a request whose start was not recorded */

void start_recording(void);
void end_recording(const char *function, const char *operation);
void pass_mark(int level);

/* Memory, or the end of the process where there is none. */
void *room(void *old, size_t bytes);

void put(const char *format, ...) __attribute__((format(printf, 1, 2)));
void put_comm(const struct comm *comm);
void put_peer(const struct comm *comm, int peer, int any);  /* `any`: whether a wildcard may stand there */
void put_tag(int tag, int any);
void put_name(int id);
void plain_line(const char *format, ...) __attribute__((format(printf, 1, 2)));
void write_bytes(const char *bytes, size_t length);
void write_line(void);  /* also where no calls are recorded: what later lines name */
void new_line(void);

/* Polls in a row: those that differ are told once each, until something else is told. */
void begin_poll(const char *function);
int end_poll(void);  /* its number, or 0 where outcomes aren't told */

/* outcomes.c: those that the program can see, told and forced; without RECORD_OUTCOMES each number is 0, and nothing is done */
void read_outcomes(int rank);
void end_outcomes(void);
int outcomes_on(void);
int new_choice(int place);  /* the number of the call that was told last, which it tells; of polls their place in the row, else 0 */
void tell_choice(int choice);
void force_source(int choice, MPI_Comm handle, int *peer, int *tag);
void force_probe(int choice, MPI_Comm *handle, int *peer, int *tag);
MPI_Request *force_requests(int choice, int *count, MPI_Request *requests, struct request **of);
void end_forced(int count, struct request **of);  /* behind the call, while the requests are still held */

/* errors.c: a call of the program returned an error, or its handler was called */
void check_result(int result);
extern _Thread_local int lines_told;  /* of the call that the program is in */

int site_number(void *address);  /* sites.c: 0 for one in the MPI library */
int tell_python_site(const char *text);
int python_sites(int *numbers, int most);

long bytes_of(long count, MPI_Datatype type);

struct comm *comm_of(MPI_Comm handle);
void add_comm(MPI_Comm handle, const char *origin);
void add_child(MPI_Comm handle, struct comm *parent);
void add_twin(MPI_Comm handle, struct comm *parent);  /* of the same members, where the handle can't be asked yet */
void forget_comm(MPI_Comm handle);

int fresh_name(void);
struct request *add_request(const MPI_Request *where, int id);
struct request *add_persistent(const MPI_Request *where);

/* The requests that an array of handles stands for, each of them once: NULL for none, and one of the name UNKNOWN where the start was
   not recorded. They stay until the next call of the same thread. */
struct request **requests_of(int count, const MPI_Request *handles);
int name_of(const struct request *request);
int finish(struct request *request);  /* the name, and the request is no longer held, or no longer active */
int drop(struct request *request);    /* the name, and the request is no longer held */

int add_message(const MPI_Message *where, int id);
int drop_message(const MPI_Message *where);

/* The call of the library under the name PMPI_NAME, with our own in front of it under both names. Fortran's bindings call
   MPI_NAME in MPICH and PMPI_NAME in Open MPI. `before` is done before the call is carried out, `after` behind it. */
#define WRAP(name, params, args, before, ...)                                                      \
    EXPORTED int MPI_##name params {                                                               \
        static int(*next) params;                                                                  \
        static const char function[] = "MPI_" #name;                                               \
        (void)function;                                                                            \
        if (!next) next = (int(*) params)real_call("PMPI_" #name);                                 \
        int outer = enter();                                                                       \
        if (outer) {                                                                               \
            before                                                                                 \
            release();                                                                             \
        }                                                                                          \
        int result = next args;                                                                    \
        if (outer) {                                                                               \
            hold();                                                                                \
            check_result(result);                                                                  \
            __VA_ARGS__                                                                            \
            release();                                                                             \
        }                                                                                          \
        leave();                                                                                   \
        return result;                                                                             \
    }                                                                                              \
    EXPORTED int PMPI_##name params __attribute__((alias("MPI_" #name)));

#endif
