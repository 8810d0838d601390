/* Reads the recordings of all ranks. */
#include "convert.h"

#include <dirent.h>
#include <errno.h>
#include <limits.h>
#include <stdlib.h>
#include <string.h>
#include <unistd.h>

struct rank *ranks;
int rank_count;
char *library;

/* Names that no call tells of: starts of persistent requests, and those beyond the calls that were asked for. */
#define MOST_NAMES 1000000
#define MOST_RANKS 1000000

static char **words;
static int word_count, word_room;

static void split(char *text) {
    word_count = 0;
    for (;;) {
        while (*text == ' ') text++;
        if (!*text) return;
        if (word_count == word_room) {
            word_room = word_room * 2 + 64;
            words = room(words, sizeof *words * (size_t)word_room);
        }
        words[word_count++] = text;
        while (*text && *text != ' ') text++;
        if (*text) *text++ = 0;
    }
}

static const char *word(int i) { return i < word_count ? words[i] : ""; }
static int is_word(int i, const char *text) { return !strcmp(word(i), text); }

/* The path of the recording that is read, for what is told of a bad one. */
static const char *reading;

static _Noreturn void fail_reading(const char *what) { fail(5, "%s is damaged: %s", reading, what); }

static long digits(const char *text, long most) {
    long number = 0;
    if (!*text) fail_reading("a number is missing");
    for (const char *c = text; *c; c++) {
        if (*c < '0' || *c > '9') fail_reading("a number is none");
        number = number * 10 + (*c - '0');
        if (number > most) fail_reading("a number is too large");
    }
    return number;
}

static int natural(int i) { return (int)digits(word(i), INT_MAX / 4); }
static long bytes(int i) { return digits(word(i), LONG_MAX / 16); }

static int positive(int i) {
    int number = natural(i);
    if (!number) fail_reading("a name is 0");
    return number;
}

/* ---- what calls name ---- */

static const char *const operations[] = {"send", "isend", "recv", "irecv", "sendrecv", "probe", "mprobe", "mrecv", "imrecv", "iprobe", "improbe",
                                         "wait", "took", "any", "polls", "free", "cancel", "coll", "icoll", "left", "other", "end", "abort"};

static enum operation operation_of(const char *name) {
    size_t at = 0, count = sizeof operations / sizeof *operations;
    while (at < count && strcmp(operations[at], name)) at++;
    if (at == count) fail_reading("an operation is unknown");
    return (enum operation)at;
}

/* An argument that is none is kept as what is told of it. */
static int wrong_argument(struct call *call, int i, const char *what) {
    char text[100];
    snprintf(text, sizeof text, "%s %.40s is none that it can have", what, word(i) + 1);
    if (!call->wrong) call->wrong = same(text);
    return WRONG;
}

static int read_comm_of(const struct rank *rank, int i) {
    if (is_word(i, "?")) return WRONG;
    int comm = natural(i);
    if (comm >= rank->comm_count) fail_reading("a communicator is missing");
    return comm;
}

static int read_member(const struct rank *rank, struct call *call, int i, const char *what) {
    if (*word(i) == '?') return wrong_argument(call, i, what);
    int peer = natural(i);
    struct group *group = group_of(rank, call);
    if (peer >= rank_count || (group && place_in(group, peer) < 0)) fail_reading("a rank is missing");
    return peer;
}

static int read_peer(const struct rank *rank, struct call *call, int i, int any) {
    if (is_word(i, "-")) return NOBODY;
    if (any && is_word(i, "*")) return ANY;
    return read_member(rank, call, i, any ? "source" : "destination");
}

/* Libraries take tags from the highest down. */
static int read_tag(struct call *call, int i, int any) {
    if (any && is_word(i, "*")) return ANY;
    if (*word(i) == '?') return wrong_argument(call, i, "tag");
    return (int)digits(word(i), INT_MAX);
}

/* A request whose start was not recorded is `?`. */
static int read_name(int i) { return is_word(i, "?") ? WRONG : positive(i); }

static unsigned char read_mode(int i) {
    if (!*word(i) || !strchr("tsbr", *word(i)) || word(i)[1]) fail_reading("the mode of a send is unknown");
    return (unsigned char)*word(i);
}

static int read_root(const struct rank *rank, struct call *call, int i) { return is_word(i, "-") ? NOBODY : read_member(rank, call, i, "root"); }

/* What stands between the operation and the call sites, a letter for each word: P, T, Q, U where a wildcard may stand, `h` and `q` a
   message and a request that may be missing, `n` and `f` any number of requests and of members. */
static const char *const operands[] = {[OP_SEND] = "mcptb", [OP_ISEND] = "micptb", [OP_RECV] = "cPTb",     [OP_IRECV] = "icPTb",
                                       [OP_PROBE] = "cPT",  [OP_MPROBE] = "icPT",  [OP_SENDRECV] = "cptbQUB", [OP_IPROBE] = "cPT",
                                       [OP_IMPROBE] = "icPT", [OP_MRECV] = "h",    [OP_IMRECV] = "ih",     [OP_WAIT] = "n",
                                       [OP_TOOK] = "n",     [OP_ANY] = "n",        [OP_POLLS] = "n",       [OP_FREE] = "q",
                                       [OP_CANCEL] = "q",   [OP_COLL] = "kcrbf",   [OP_ICOLL] = "ikcrbf",  [OP_LEFT] = "",
                                       [OP_OTHER] = "",     [OP_END] = "",         [OP_ABORT] = ""};

static void read_operand(const struct rank *rank, struct call *call, char what, int i) {
    switch (what) {
    case 'm': call->mode = read_mode(i); break;
    case 'i': call->id = positive(i); break;
    case 'c': call->comm = read_comm_of(rank, i); break;
    case 'p': call->peer = read_peer(rank, call, i, 0); break;
    case 'P': call->peer = read_peer(rank, call, i, 1); break;
    case 'Q': call->peer2 = read_peer(rank, call, i, 1); break;
    case 't': call->tag = read_tag(call, i, 0); break;
    case 'T': call->tag = read_tag(call, i, 1); break;
    case 'U': call->tag2 = read_tag(call, i, 1); break;
    case 'b': call->bytes = bytes(i); break;
    case 'B': bytes(i); break;
    case 'k': call->kind = same(word(i)); break;
    case 'r': call->root = read_root(rank, call, i); break;
    case 'h': call->of = read_name(i); break;
    case 'q': call->id = read_name(i); break;
    case 'n': call->list[call->count++] = read_name(i); break;
    default: call->list[call->count++] = read_member(rank, call, i, "source");
    }
}

static void read_operands(const struct rank *rank, struct call *call, int end) {
    const char *form = call->op == OP_POLLS && strstr(call->function, "probe") ? operands[OP_PROBE] : operands[call->op];
    int i = 3;
    for (; *form; form++) {
        int many = *form == 'n' || *form == 'f', optional = many || *form == 'h' || *form == 'q';
        if (i >= end && !optional) fail_reading("a word is missing");
        if (many && i < end) call->list = room(NULL, sizeof(int) * (size_t)(end - i));
        do {
            if (i < end) read_operand(rank, call, *form, i++);
        } while (many && i < end);
    }
    if (i < end) fail_reading("a call has too many words");
}

/* A request or message is made once, by numbers from 1 on, so no name is above the number of calls by much. */
static void note_start(struct rank *rank, int id) {
    static int places;
    if (id > rank->count + MOST_NAMES) fail_reading("a request has a name that is too high");
    if (rank->most_request == 0) places = 0;
    while (id >= places) {
        int more = places * 2 + 1024;
        rank->starts = room(rank->starts, sizeof(int) * (size_t)more);
        memset(rank->starts + places, 0, sizeof(int) * (size_t)(more - places));
        places = more;
    }
    if (rank->starts[id]) fail_reading("a name is given twice");
    rank->starts[id] = rank->count;
    if (id > rank->most_request) rank->most_request = id;
}

/* Few different ones come again and again. */
static struct stack *read_sites(const struct rank *rank, int from) {
    static struct stack **known;
    static size_t known_room, known_count;
    size_t hash = (size_t)(rank - ranks) + 1;
    struct stack *stack = room(NULL, sizeof *stack + sizeof(int) * (size_t)(word_count - from + 1));
    memset(stack, 0, sizeof *stack);
    stack->sites[0] = (int)(rank - ranks);  /* numbers are the rank's own */
    for (int i = from; i < word_count; i++) {
        int site = natural(i) - 1;
        if (site < 0 || site >= rank->site_count) fail_reading("a call site is missing");
        stack->sites[1 + stack->count++] = site;
        hash = (hash ^ (size_t)site) * 1099511628211u;
    }
    if (known_count * 2 >= known_room) {
        known_room = known_room * 2 + 1024;
        known = zeros(known_room, sizeof *known);
        known_count = 0;  /* those from before stay where they are used */
    }
    size_t length = sizeof *stack + sizeof(int) * (size_t)(stack->count + 1), at = (hash ^ hash >> 29) % known_room;
    while (known[at] && (known[at]->count != stack->count || memcmp(known[at], stack, length))) at = (at + 1) % known_room;
    if (known[at])
        free(stack);
    else
        known[at] = stack, known_count++;
    return known[at];
}

static void read_call(struct rank *rank, int *most) {
    if (rank->ended || rank->aborted) fail_reading("a call stands behind the end");
    if (rank->count == INT_MAX / 4) fail_reading("it is too long");
    if (rank->count == *most) {
        *most = *most * 2 + 256;
        rank->calls = room(rank->calls, sizeof *rank->calls * (size_t)*most);
    }
    struct call *call = rank->calls + rank->count++;
    memset(call, 0, sizeof *call);
    call->found = WRONG;
    call->comm = WRONG;
    call->function = same(word(1));
    call->op = (unsigned char)operation_of(word(2));
    int end = 3;
    while (end < word_count && !is_word(end, "@")) end++;
    if (end >= word_count) fail_reading("a word is missing");
    read_operands(rank, call, end);
    if (call->id > 0 && call->op != OP_FREE && call->op != OP_CANCEL) note_start(rank, call->id);
    if (call->of > rank->most_request || (call->of > 0 && !rank->starts[call->of])) fail_reading("a message is missing");
    call->sites = read_sites(rank, end + 1);
    rank->ended = call->op == OP_END;
    rank->aborted = call->op == OP_ABORT;
}

/* ---- communicators ---- */

static struct group *read_group(const char *name, int rank, int from) {
    int size = word_count - from, *members = room(NULL, sizeof(int) * (size_t)(size + 1));
    const char *fault = NULL;
    for (int i = 0; i < size; i++) members[i] = natural(from + i);
    struct group *group = group_named(name, rank, size, members, &fault);
    if (!group) fail_reading(fault);
    return group;
}

/* The name of one that is told by its members, without the count of those with the same ones. */
static const char *name_by_members(const char *parent) {
    size_t length = strlen(parent) + strlen(word(4)) + 64, at;
    for (int i = 6; i < word_count; i++) length += strlen(words[i]) + 1;
    char *name = room(NULL, length);
    at = (size_t)snprintf(name, length, "%s.group%s", parent, word(4));
    for (int i = 6; i < word_count; i++) at += (size_t)snprintf(name + at, length - at, "_%s", words[i]);
    const char *kept = same(name);
    free(name);
    return kept;
}

/* `comm ID world|self : MEMBERS`, or `comm ID child|group PARENT WORD : MEMBERS`, or `inter` in place of `: MEMBERS` */
static void read_comm(struct rank *rank) {
    struct comm comm = {0};
    int id = natural(1), first = is_word(2, "world") || is_word(2, "self"), from = first ? 3 : 5, which = (int)(rank - ranks);
    if (id != rank->comm_count || (first != (id < 2)) || (!first && !is_word(2, "child") && !is_word(2, "group"))) fail_reading("a communicator is missing");
    if (is_word(from, "inter") ? word_count != from + 1 : !is_word(from, ":")) fail_reading("a communicator is none");
    if (!is_word(from, "inter")) {
        const char *name = word(2);
        int of = first ? WRONG : read_comm_of(rank, 3);
        struct group *parent = of < 0 ? NULL : rank->comms[of].group;
        size_t length = strlen(parent ? parent->name : "") + strlen(word(4)) + 32;
        if (!first && !parent) fail_reading("a communicator is missing");
        if (is_word(2, "group")) comm.base = name_by_members(parent->name);
        int same_base = 1;
        for (int i = 0; comm.base && i < id; i++) same_base += rank->comms[i].base == comm.base;
        char *text = room(NULL, length + strlen(comm.base ? comm.base : ""));
        if (comm.base)
            sprintf(text, "%s.%d", comm.base, same_base);
        else if (first)
            strcpy(text, name);
        else
            sprintf(text, "%s.%s", parent->name, word(4));
        comm.group = read_group(same(text), which, from + 1);
        free(text);
        for (int i = 0; i < id; i++)
            if (rank->comms[i].group == comm.group) fail_reading("a communicator is told twice");
    }
    rank->comms = room(rank->comms, sizeof *rank->comms * (size_t)(id + 1));
    rank->comms[rank->comm_count++] = comm;
}

static void read_given_name(struct rank *rank, const char *text) {
    int id, skip = 0;
    if (sscanf(text, "name %d %n", &id, &skip) < 1 || !skip || id < 0 || id >= rank->comm_count) fail_reading("a communicator is missing");
    if (rank->comms[id].group) rank->comms[id].group->given = text[skip] ? same(text + skip) : NULL;
}

/* ---- other lines ---- */

static void read_site(struct rank *rank, const char *text) {
    struct site site = {0};
    int skip = 0, number;
    if (sscanf(text, "site %d %lx %n", &number, &site.offset, &skip) < 2 || !skip) fail_reading("a call site is none");
    if (number != rank->site_count + 1) fail_reading("a call site is told twice, or is missing");
    site.object = copy(text + skip);
    if (!(rank->site_count & (rank->site_count - 1)))
        rank->sites = room(rank->sites, sizeof site * (size_t)(rank->site_count ? rank->site_count * 2 : 1));
    rank->sites[rank->site_count++] = site;
}

/* `found NAME SOURCE TAG ASKED`: of a receive's request, or 0 for the last call */
static void read_found(struct rank *rank, struct call *last) {
    int id = natural(1), source = natural(2);
    if (word_count != 5 || id > rank->most_request || source >= rank_count || (id && !rank->starts[id])) fail_reading("what was found is none");
    struct call *call = id ? rank->calls + rank->starts[id] - 1 : last;
    call->found = source;
    call->found_tag = (int)digits(word(3), INT_MAX);
    call->asked = is_word(4, "1");
}

/* `failed argument CLASS`: nothing was begun; `failed call CLASS`: what became of it isn't known */
static void read_failure(struct call *last) {
    if (word_count != 3 || (!is_word(1, "argument") && !is_word(1, "call"))) fail_reading("an error is none");
    last->error = is_word(1, "argument") ? NOT_BEGUN : NOT_KNOWN;
    last->dropped = last->error == NOT_BEGUN;
    last->wrong = same(word(2));
}

/* `choice N`: the number of the last call's outcome; of the poll with this number `spins N`, that nothing else follows it, and `again N`,
   that it came again behind others */
static void read_choice(struct rank *rank, struct call *last) {
    int number = positive(1), i = rank->count;
    if (word_count != 2) fail_reading("a choice is none");
    if (is_word(0, "choice")) {
        last->choice = number;
        return;
    }
    while (i > 0 && rank->calls[i - 1].choice != number) i--;
    if (!i) fail_reading("a choice is missing");
    if (is_word(0, "spins"))
        rank->calls[i - 1].spins = 1;
    else
        rank->calls[i - 1].again = 1;
}

static void read_line(struct rank *rank, char *text, int *most) {
    struct call *last = rank->count ? rank->calls + rank->count - 1 : NULL;
    if (!strncmp(text, "site ", 5)) {
        read_site(rank, text);
        return;
    }
    if (!strncmp(text, "name ", 5)) {
        read_given_name(rank, text);
        return;
    }
    split(text);
    const char *what = word(0);
    if (!strcmp(what, "call"))
        read_call(rank, most);
    else if (!strcmp(what, "comm"))
        read_comm(rank);
    else if (!strcmp(what, "failed") && last)
        read_failure(last);
    else if (!strcmp(what, "found") && last)
        read_found(rank, last);
    else if ((!strcmp(what, "choice") || !strcmp(what, "spins") || !strcmp(what, "again")) && last)
        read_choice(rank, last);
    else if (!strcmp(what, "state") && (is_word(1, "i") || is_word(1, "b") || is_word(1, "?")) && !rank->comm_count)
        rank->inside = is_word(1, "?") ? 0 : *word(1);
    else if (!strcmp(what, "cut"))
        rank->cut = 1;
    else if (!strcmp(what, "threads"))
        rank->threads = 1;
    else if (!strcmp(what, "moved"))
        rank->moved++;
    else if (!strcmp(what, "mark"))
        rank->marks++;
    else
        fail_reading("a line is unknown");
}

/* ---- files ---- */

/* Why a rank has no recording, as far as the end of the run tells. */
static _Noreturn void tell_missing(int rank, int none) {
    const char *guess = none ? "; or it is no MPI program, is statically linked, or is one of another MPI" : "";
    if (options.run == RUN_TIME) fail(5, "rank %d left no recording: the time was up before it was through MPI_Init%s", rank, guess);
    if (options.run > 0) fail(5, "rank %d left no recording: the run ended with status %d before it was through MPI_Init%s", rank, options.run, guess);
    if (none) fail(5, "rank %d left no recording (no MPI program, statically linked, or another MPI?)", rank);
    fail(5, "rank %d left no recording", rank);
}

/* A rank may still be ending when mpirun has ended; it is waited for once. */
static FILE *open_recording(const char *path) {
    static int waited;
    FILE *file = fopen(path, "r");
    if (file || errno != ENOENT || waited++ || options.run == RUN_UNKNOWN) return file;
    sleep(1);
    return fopen(path, "r");
}

/* A rank that was killed leaves whole lines, since each is written at once. */
static void read_one(const char *path, int which) {
    FILE *file = open_recording(path);
    if (!file && errno == ENOENT) tell_missing(which, 0);
    if (!file) fail(5, "%s can't be read", path);
    reading = path;
    struct rank *rank = ranks + which;
    char *text = NULL, first[64];
    snprintf(first, sizeof first, "recording 1 %d %d ", which, rank_count);
    size_t size = 0;
    int most = 0;
    ssize_t length, number = 0;
    for (; (length = getline(&text, &size, file)) > 0; number++) {
        if (text[length - 1] != '\n' || memchr(text, 0, (size_t)length)) fail_reading("a line has no end");
        text[length - 1] = 0;
        if (number)
            read_line(rank, text, &most);
        else if (strncmp(text, first, strlen(first)))
            fail_reading("it doesn't begin as the recording of that rank in this run");
    }
    if (ferror(file)) fail(5, "%s can't be read", path);
    if (!number) fail_reading("it is empty");
    if (!rank->starts) rank->starts = zeros(1, sizeof *rank->starts);
    free(text);
    fclose(file);
}

static void look_for_words(const char *directory) {
    struct dirent *entry;
    DIR *folder = opendir(directory);
    while (folder && (entry = readdir(folder))) {
        if (!strcmp(entry->d_name, "several"))
            fail(3, "two MPI programs of this run have the same ranks (one after the other, or one that the other one starts): only one can be recorded");
        if (!strcmp(entry->d_name, "sessions")) fail(3, "MPI_Session_init before MPI_Init: not covered");
    }
    if (folder) closedir(folder);
}

void read_recordings(const char *directory) {
    size_t length = strlen(directory) + 32;
    char *path = room(NULL, length);
    look_for_words(directory);
    snprintf(path, length, "%s/rank.0", directory);
    FILE *file = open_recording(path);
    if (!file) tell_missing(0, 1);
    char text[4096] = "";
    int version, rank, skip = 0;
    if (!fgets(text, sizeof text, file) || sscanf(text, "recording %d %d %d %n", &version, &rank, &rank_count, &skip) < 3 || version != 1 ||
        rank_count < 1 || rank_count > MOST_RANKS)
        fail(5, "%s is no recording", path);
    fclose(file);
    for (char *c = text; *c; c++)
        if (*c == '\t' || *c == '\n') *c = ' ';
    while (*text && text[strlen(text) - 1] == ' ') text[strlen(text) - 1] = 0;
    library = copy(text + skip);
    ranks = zeros((size_t)rank_count, sizeof *ranks);
    for (int i = 0; i < rank_count; i++) {
        snprintf(path, length, "%s/rank.%d", directory, i);
        read_one(path, i);
    }
    free(path);
}
