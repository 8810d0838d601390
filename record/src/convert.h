/* What the parts of the converter share: recordings of all ranks, and the lines that are made of them. */
#ifndef CONVERT_H
#define CONVERT_H

#include <stddef.h>
#include <stdio.h>

#define ANY (-1)     /* a wildcard */
#define NOBODY (-2)  /* MPI_PROC_NULL */
#define WRONG (-3)   /* not known */

/* What became of a call that returned an error. */
#define NOT_BEGUN 1
#define NOT_KNOWN 2

/* ---- recordings ---- */

enum operation {
    OP_SEND, OP_ISEND, OP_RECV, OP_IRECV, OP_SENDRECV, OP_PROBE, OP_MPROBE, OP_MRECV, OP_IMRECV, OP_IPROBE, OP_IMPROBE,
    OP_WAIT, OP_TOOK, OP_ANY, OP_POLLS, OP_FREE, OP_CANCEL, OP_COLL, OP_ICOLL, OP_LEFT, OP_OTHER, OP_END, OP_ABORT
};

struct call {
    const char *function, *kind;  /* of a collective its kind */
    const char *wrong;       /* what is told of an argument that is none, or of an error that the call returned; NULL */
    int *list, count;        /* the requests of a wait; where a collective takes something from */
    int *parts, part_count;  /* of a nonblocking collective: the receives that stand for it */
    struct stack *sites;
    struct instance *instance;
    long bytes;
    int id, of;              /* the request or message that it makes; the message that it receives */
    int comm;                /* the rank's own number of the communicator, or WRONG */
    int peer, tag, peer2, tag2, root;
    int found, found_tag;    /* what a wildcard found, or WRONG */
    int message;             /* a probe and the receive behind it that are written as a matched probe and its receive */
    int phase;
    int choice, opened;      /* the number of its outcome, or 0; of a success the call that began it, from 1 */
    unsigned char op, mode;  /* enum operation; of a send t, s, b or r */
    unsigned char asked;     /* whether the program took the status of what a wildcard found */
    unsigned char error;     /* it returned one: NOT_BEGUN or NOT_KNOWN */
    unsigned char unwaited;  /* a start: its request is freed, or open at the end */
    unsigned char freed;
    unsigned char dropped;   /* it has no line */
    unsigned char spins;     /* a poll that was made to fail, and that nothing else followed */
    unsigned char again;     /* a poll that came again behind others of its row */
    unsigned char stands;    /* the rank stands in it, a poll or a wait for any */
};

/* Call sites, from the inside out. */
struct stack {
    const char *place, *callers;  /* in words, once they are asked for */
    int count, sites[];
};

struct site {
    char *object, *function, *place;  /* the place in a source, or NULL */
    const char *shown;                /* the part of it that maps tell: without its folder where one file alone has that name */
    unsigned long offset;
};

/* A communicator as all of its members have it; siblings have one name, and no member in common. */
struct group {
    const char *name, *given;  /* by the program, or NULL */
    int size, lowest, highest;
    int *members, *places;     /* the number in it of each rank from the lowest to the highest, or -1 */
    int rises;                 /* its members rise */
    struct instance **instances;
    int instance_count;
    int told;                /* in the map that is made: it has a line there */
    int text, number, met;   /* the last text in which its collectives have lines, its number there, and how many of them there are */
};

/* A rank's communicator. */
struct comm {
    struct group *group;     /* NULL: an intercommunicator */
    const char *base;        /* of one that is named by its members: without the count of those of the same members */
    int collectives;         /* how many of its calls were seen so far */
};

struct rank {
    struct call *calls;
    int count;
    struct comm *comms;
    int comm_count;
    struct site *sites;
    int site_count;
    int *starts, most_request;  /* the call that made each request or message, from 1 on; 0: none */
    int ended, aborted, cut, threads, moved, marks;
    char inside;                /* where it was at the end: i inside of a call, b behind one, 0 not known */
};

/* One collective call of all members of a communicator. */
struct instance {
    struct group *group;
    int number;              /* among those of the communicator */
    const char *kind, *function;  /* the function as the first member called it */
    int nonblocking, root, arrived;
    struct call **calls;     /* of each member, or NULL */
    int usual, teller, form, kind_number, *takers, *takers_of;  /* see forms.c */
    int tag;                 /* among all instances: its lines have twice that, and 1 more in their second round */
    int text, place;         /* the last text in which it has lines, and how many of the communicator's stand before it there */
    int whole;               /* all ranks of the program belong to it */
    int passed;              /* of how many members the call stands before the cut that is looked at */
    int cut;                 /* the phases are cut here */
};

extern struct rank *ranks;
extern int rank_count;
extern char *library;
extern int instance_count;
extern struct group **groups;
extern int group_count;

/* ---- lines ---- */

enum word { W_SEND, W_SSEND, W_BSEND, W_ISEND, W_ISSEND, W_IBSEND, W_RECV, W_IRECV, W_PROBE, W_MPROBE, W_MRECV, W_IMRECV, W_WAIT, W_SENDRECV };

/* Names are numbers of the rank's own, first those of the recording. */
struct line {
    enum word word;
    int name, of;
    int peer, tag, peer2, tag2;
    const char *comm;        /* its name; NULL: a collective's, or one whose tag all ranks have for one message alone */
    int *list, count;
    struct call *call;
    const char *remark;
    long number;             /* in the text that was made last, from 1 */
    unsigned char issued, done, received;  /* where the ranks stand at the end: see ends.c */
};

struct lines {
    struct line *at;
    int count, room;
    int added;               /* how many of the last ones were added */
};

extern struct lines *lines;  /* of each rank */

/* ---- texts ---- */

/* Texts and numbers that get numbers of the text's own, from 0 on, in the order in which they come. */
struct numbers {
    size_t *keys;
    int *places;             /* a hash table of indices + 1 */
    int count;
    size_t room;
};

struct bytes {
    char *at;
    size_t count, room;
};

struct text {
    struct bytes bytes, map;
    long calls, events, lines, sends, wild, choices, pairs;
    int plain;               /* tags as they are, and a map */
    int serial;              /* among all texts that were made, from 1 on */
    struct numbers comms, tags;
    struct group **meetings; /* whose collectives have lines, in the order of their numbers */
    int meeting_count, message_count;
    unsigned char *used_tags;  /* of those that need no other number */
    int *other_tags, other_count;  /* the number of each tag that needs one */
    int free_tag;            /* no number from this on is free */
    long asked;              /* wildcards that may find several ranks, and whose status the program took */
    const struct call *first_asked;
    int asked_rank;
};

/* How the run ended, as the launcher saw it: with an exit status from 0 on, or */
#define RUN_UNKNOWN (-1)
#define RUN_TIME (-2)   /* it was ended, by --time or by a signal to the launcher */

struct options {
    const char *policy;
    int run;
    int most;                /* each collective holds all of its ranks until all have come */
    int this_run;            /* the path that the run took is taken */
    int free_tests;          /* tests of sends alone are left out */
    int leave_out;           /* calls that are refused are left out */
    int outcomes;            /* calls that depend on what has arrived are taken as they came, and told in NAME.choices */
    int phases, small;       /* small: the same runs in fewer events and pairs */
};
extern struct options options;

/* notes.c */
const char *same(const char *text);  /* one place for each text */
extern char **notes;
extern int note_count;
void *room(void *old, size_t bytes);
void *zeros(size_t count, size_t size);
char *copy(const char *text);
void note(const char *format, ...) __attribute__((format(printf, 1, 2)));
_Noreturn void fail(int status, const char *format, ...) __attribute__((format(printf, 2, 3)));

/* read.c, places.c */
void read_recordings(const char *directory);
void find_places(void);
const char *place_of(const struct rank *rank, const struct call *call);
const char *words_of(const struct rank *rank, const struct call *call);    /* the place, and in which function */
const char *callers_of(const struct rank *rank, const struct call *call);  /* each behind ` < ` */
void put_files(FILE *file);

/* groups.c */
int place_in(const struct group *group, int rank);  /* the number of a rank in it, or -1 */
struct group *group_of(const struct rank *rank, const struct call *call);
struct group *group_named(const char *name, int rank, int size, int *members, const char **fault);

/* polls.c: waits and probes that were polled for, or taken one by one */
void settle_polls(int rank);

/* choices.c: the outcomes that the program could see */
void settle_choices(int rank);
void write_choices(const char *name, struct text *text);

/* refusals.c */
int tells_sends_alone(const struct rank *rank, const struct call *call);
void look_for_refusals(void);
void tell_refusals(void);  /* ends the program where something is refused */

/* starts.c, paths.c */
void settle_starts(int rank);
void join_probes(int rank);
void leave_out_unmatched(void);
void warn_of_paths(int rank);
enum path { P_NO_OTHER, P_ONE_OF_SEVERAL, P_THIS_RUN };  /* what the recording shows of other paths; each outweighs those before it */
void found_path(enum path path);
void put_path(FILE *map);

/* forms.c */
void gather_instances(void);  /* ends the program where calls don't fit each other */
int is_full(struct instance *instance);  /* nobody leaves before all have come */
void add_form(int rank, struct call *call);

/* ends.c: how the run ended, and where each rank stood then */
void look_at_ends(void);  /* ends the program where the run broke off */
void find_end(void);
void end_at_cut(void);
void put_end(FILE *map, int phase);
void tell_end(void);  /* on standard output */
int status_of_end(void);

/* phases.c: how many phases there are; what stands behind the last cut is left out */
extern int phase_count;
int find_cuts(void);
void leave_out_the_rest(int phase);

/* lines.c: requests and handles are named by numbers below `names_of` */
void start_lines(void);
void add_lines(int rank);
size_t hash_of_message(int from, int to, int tag, const char *comm);
struct line *add_line(int rank, enum word word, struct call *call);
int fresh_part(int rank);
int names_of(int rank);

/* small.c: some messages have a number of their own */
extern int message_count;
void make_small(void);

/* texts.c, different.c: of one phase, or of all where the phase is negative */
struct text make_text(int phase, int plain, const char *name);
int comm_in_text(struct text *text, const char *comm);
int tag_in_text(struct text *text, int tag);
void write_text(const char *name, int phase, const char *suffix);
void free_text(struct text *text);
void write_phases(const char *name, int count);

#endif
