/* A small MPI for tests: ranks are processes, messages stand in shared memory, and a rank that waits sleeps. It has MPICH's binary
   interface for the calls below, so programs and the recorder run with it as they are; a run takes some milliseconds. Standard sends are
   buffered. `mpirun` beside it starts the ranks. */
#define _GNU_SOURCE
#include <mpi.h>
#include <fcntl.h>
#include <pthread.h>
#include <sched.h>
#include <stdio.h>
#include <stdlib.h>
#include <string.h>
#include <sys/mman.h>
#include <unistd.h>

#define MOST_RANKS 64
#define SLOTS 1024
#define MOST_BYTES 16384
enum { FREE, SENT, CLAIMED, TAKEN };
enum { RUNNING, BLOCKED, FINISHED };

struct slot {
    int state, src, dst, tag, ctx, bytes, sync;
    long seq;
    char data[MOST_BYTES];
};
struct shared {
    int state[MOST_RANKS];   /* first: the launcher reads it */
    int begun;
    pthread_mutex_t lock;
    pthread_cond_t cond[MOST_RANKS];
    long seq;
    struct slot slot[SLOTS];
};
struct req {
    int used, kind;          /* 's' sync send, 'd' done, 'r' receive, 'm' receive of a claimed message */
    int src, tag, ctx, slot, done;
    void *buffer;
    long bytes;
    MPI_Status status;
    long order;
};
static struct shared *S;
static int me, n;
static struct req reqs[4096];
static long posted;
static int ctxs = 2;
#define EXPORT(name) __attribute__((visibility("default")))
#define BOTH(ret, name, params) ret PMPI_##name params; ret MPI_##name params __attribute__((alias("PMPI_" #name))); ret PMPI_##name params
#define B(name, params) BOTH(int, name, params)

static long size_of(MPI_Datatype t) {
    if (t == MPI_DATATYPE_NULL) return 0;
    return ((unsigned)t & 0xff00) >> 8;
}
static int ctx_of(MPI_Comm c) { return c == MPI_COMM_WORLD ? 0 : c == MPI_COMM_SELF ? 1 : (c & 0xffff); }
static int world(MPI_Comm c, int r) { return c == MPI_COMM_SELF ? me : r; }
static void lock(void) { pthread_mutex_lock(&S->lock); }
static void unlock(void) { pthread_mutex_unlock(&S->lock); }
static void wake(int r) { if (S->state[r] == BLOCKED) { S->state[r] = RUNNING; pthread_cond_signal(&S->cond[r]); } }
static void nap(void) { S->state[me] = BLOCKED; while (S->state[me] == BLOCKED) pthread_cond_wait(&S->cond[me], &S->lock); }

static void begin(void) {
    if (S) return;
    const char *path = getenv("SMALL_SHM");
    if (!path) { fprintf(stderr, "small: SMALL_SHM is missing\n"); _exit(70); }
    me = atoi(getenv("SMALL_RANK")); n = atoi(getenv("SMALL_SIZE"));
    int f = open(path, O_RDWR);
    S = mmap(NULL, sizeof *S, PROT_READ | PROT_WRITE, MAP_SHARED, f, 0);
    close(f);
    if (me == 0) {
        pthread_mutexattr_t a; pthread_condattr_t c;
        pthread_mutexattr_init(&a); pthread_mutexattr_setpshared(&a, PTHREAD_PROCESS_SHARED); pthread_mutex_init(&S->lock, &a);
        pthread_condattr_init(&c); pthread_condattr_setpshared(&c, PTHREAD_PROCESS_SHARED);
        for (int i = 0; i < n; i++) pthread_cond_init(&S->cond[i], &c);
        __atomic_store_n(&S->begun, 1, __ATOMIC_SEQ_CST);
    } else while (!__atomic_load_n(&S->begun, __ATOMIC_SEQ_CST)) usleep(200);
}
B(Init, (int *c, char ***v)) { (void)c; (void)v; begin(); return 0; }
B(Init_thread, (int *c, char ***v, int q, int *p)) { (void)c; (void)v; *p = q; begin(); return 0; }
B(Finalize, (void)) { lock(); S->state[me] = FINISHED; unlock(); return 0; }
B(Initialized, (int *f)) { *f = S != NULL; return 0; }
B(Finalized, (int *f)) { *f = S && S->state[me] == FINISHED; return 0; }
B(Abort, (MPI_Comm c, int e)) { (void)c; _exit(e ? e : 1); }
B(Comm_rank, (MPI_Comm c, int *r)) { *r = c == MPI_COMM_SELF ? 0 : me; return 0; }
B(Comm_size, (MPI_Comm c, int *r)) { *r = c == MPI_COMM_SELF ? 1 : n; return 0; }
B(Comm_test_inter, (MPI_Comm c, int *f)) { (void)c; *f = 0; return 0; }
B(Comm_group, (MPI_Comm c, MPI_Group *g)) { *g = c == MPI_COMM_SELF ? 1 : 2; return 0; }
B(Group_free, (MPI_Group *g)) { *g = MPI_GROUP_NULL; return 0; }
B(Group_translate_ranks, (MPI_Group a, int k, const int r[], MPI_Group b, int out[])) { (void)b; for (int i = 0; i < k; i++) out[i] = a == 1 ? me : r[i]; return 0; }
B(Comm_dup, (MPI_Comm c, MPI_Comm *o)) { (void)c; *o = 0x84000000 | ctxs++; return 0; }
B(Comm_free, (MPI_Comm *c)) { *c = MPI_COMM_NULL; return 0; }
B(Comm_set_errhandler, (MPI_Comm c, MPI_Errhandler e)) { (void)c; (void)e; return 0; }
B(Errhandler_set, (MPI_Comm c, MPI_Errhandler e)) { (void)c; (void)e; return 0; }
B(Type_size, (MPI_Datatype t, int *s)) { *s = (int)size_of(t); return 0; }
B(Get_library_version, (char *v, int *l)) { strcpy(v, "small"); *l = 4; return 0; }
B(Get_processor_name, (char *v, int *l)) { strcpy(v, "here"); *l = 4; return 0; }
B(Buffer_attach, (void *b, int s)) { (void)b; (void)s; return 0; }
B(Buffer_detach, (void *b, int *s)) { (void)b; if (s) *s = 0; return 0; }
B(Get_count, (const MPI_Status *s, MPI_Datatype t, int *c)) { *c = size_of(t) ? s->count_lo / (int)size_of(t) : 0; return 0; }
B(Test_cancelled, (const MPI_Status *s, int *f)) { (void)s; *f = 0; return 0; }
B(Pcontrol, (const int l, ...)) { (void)l; return 0; }
BOTH(double, Wtime, (void)) { struct timespec t; clock_gettime(CLOCK_MONOTONIC, &t); return t.tv_sec + t.tv_nsec * 1e-9; }
B(Error_string, (int e, char *s, int *l)) { (void)e; strcpy(s, "?"); *l = 1; return 0; }
B(Error_class, (int e, int *c)) { *c = e; return 0; }

static void fill(MPI_Status *s, int src, int tag, int bytes) {
    if (!s || s == MPI_STATUS_IGNORE) return;
    memset(s, 0, sizeof *s);
    s->MPI_SOURCE = src; s->MPI_TAG = tag; s->count_lo = bytes;
}
static int fit(const struct slot *x, int src, int tag, int ctx) {
    return x->dst == me && x->ctx == ctx && (src == MPI_ANY_SOURCE || src == x->src) && (tag == MPI_ANY_TAG || tag == x->tag);
}
static void take(struct slot *x, struct req *q) {
    long k = x->bytes < q->bytes ? x->bytes : q->bytes;
    if (k > MOST_BYTES) k = MOST_BYTES;
    memcpy(q->buffer, x->data, (size_t)k);
    fill(&q->status, q->ctx == 1 ? 0 : x->src, x->tag, x->bytes);
    q->done = 1;
    if (x->sync) { x->state = TAKEN; wake(x->src); } else x->state = FREE;
}
static struct slot *next_of(long after) {  /* the earliest message to me that is sent and not before */
    struct slot *best = NULL;
    for (int i = 0; i < SLOTS; i++)
        if (S->slot[i].state == SENT && S->slot[i].dst == me && S->slot[i].seq > after && (!best || S->slot[i].seq < best->seq)) best = S->slot + i;
    return best;
}
static void progress(void) {
    for (struct slot *x = next_of(0); x; x = next_of(x->seq)) {
        struct req *best = NULL;
        for (int i = 0; i < 4096; i++)
            if (reqs[i].used && reqs[i].kind == 'r' && !reqs[i].done && fit(x, reqs[i].src, reqs[i].tag, reqs[i].ctx) && (!best || reqs[i].order < best->order)) best = reqs + i;
        if (best) take(x, best);
    }
}
static struct req *fresh(int kind) {
    for (int i = 1; i < 4096; i++)
        if (!reqs[i].used) { memset(reqs + i, 0, sizeof reqs[i]); reqs[i].used = 1; reqs[i].kind = kind; reqs[i].order = ++posted; return reqs + i; }
    abort();
}
static MPI_Request handle(struct req *q) { return (MPI_Request)(0x98000000u | (unsigned)(q - reqs)); }
static struct req *of(MPI_Request h) { return h == MPI_REQUEST_NULL ? NULL : reqs + (h & 0xfff); }
static int put(const void *b, long bytes, int to, int tag, int ctx, int sync) {
    if (to == MPI_PROC_NULL) return -1;
    lock();
    int i = 0;
    while (i < SLOTS && S->slot[i].state != FREE) i++;
    if (i == SLOTS) abort();
    struct slot *x = S->slot + i;
    x->src = me; x->dst = to; x->tag = tag; x->ctx = ctx; x->bytes = (int)bytes; x->sync = sync; x->seq = ++S->seq;
    memcpy(x->data, b, (size_t)(bytes > MOST_BYTES ? MOST_BYTES : bytes));
    x->state = SENT;
    wake(to);
    unlock();
    return i;
}
static int is_done(struct req *q) {
    if (!q || q->kind == 'd' || q->kind == 'm') return 1;
    if (q->kind == 's') return q->slot < 0 || S->slot[q->slot].state == TAKEN;
    return q->done;
}
static void end(MPI_Request *h, MPI_Status *s) {  /* of one that is done */
    struct req *q = of(*h);
    if (!q) { fill(s, MPI_ANY_SOURCE, MPI_ANY_TAG, 0); return; }
    if (q->kind == 's' && q->slot >= 0) S->slot[q->slot].state = FREE;
    if (q->kind == 'r' || q->kind == 'm') { if (s && s != MPI_STATUS_IGNORE) *s = q->status; } else fill(s, MPI_ANY_SOURCE, MPI_ANY_TAG, 0);
    q->used = 0;
    *h = MPI_REQUEST_NULL;
}
static void wait_for(struct req *q) { for (progress(); !is_done(q); progress()) nap(); }
static int blocking(const void *b, int c, MPI_Datatype t, int to, int tag, MPI_Comm m, int sync) {
    struct req q = {.kind = 's'};
    q.slot = put(b, c * size_of(t), to < 0 ? to : world(m, to), tag, ctx_of(m), sync);
    if (!sync || q.slot < 0) return 0;
    lock(); wait_for(&q); S->slot[q.slot].state = FREE; unlock();
    return 0;
}
#define TO const void *b, int c, MPI_Datatype t, int to, int tag, MPI_Comm m
B(Send, (TO)) { return blocking(b, c, t, to, tag, m, 0); }
B(Bsend, (TO)) { return blocking(b, c, t, to, tag, m, 0); }
B(Rsend, (TO)) { return blocking(b, c, t, to, tag, m, 0); }
B(Ssend, (TO)) { return blocking(b, c, t, to, tag, m, 1); }
static int start_send(const void *b, long bytes, int to, int tag, MPI_Comm m, int sync, struct req *q) {
    q->slot = put(b, bytes, to < 0 ? to : world(m, to), tag, ctx_of(m), sync);
    q->kind = sync && q->slot >= 0 ? 's' : 'd';
    return 0;
}
#define ISEND(name, sync) B(name, (TO, MPI_Request *r)) { struct req *q = fresh('d'); start_send(b, c * size_of(t), to, tag, m, sync, q); *r = handle(q); return 0; }
ISEND(Isend, 0) ISEND(Ibsend, 0) ISEND(Irsend, 0) ISEND(Issend, 1)
static void start_recv(void *b, long bytes, int from, int tag, MPI_Comm m, struct req *q) {
    q->kind = from == MPI_PROC_NULL ? 'd' : 'r'; q->done = 0; q->order = ++posted;
    q->buffer = b; q->bytes = bytes; q->src = from < 0 ? from : world(m, from); q->tag = tag; q->ctx = ctx_of(m);
    fill(&q->status, MPI_PROC_NULL, MPI_ANY_TAG, 0);
    lock(); progress(); unlock();
}
#define FROM void *b, int c, MPI_Datatype t, int from, int tag, MPI_Comm m
B(Irecv, (FROM, MPI_Request *r)) { struct req *q = fresh('d'); start_recv(b, c * size_of(t), from, tag, m, q); *r = handle(q); return 0; }
B(Wait, (MPI_Request *r, MPI_Status *s)) { lock(); wait_for(of(*r)); end(r, s); unlock(); return 0; }
B(Recv, (FROM, MPI_Status *s)) { MPI_Request r; PMPI_Irecv(b, c, t, from, tag, m, &r); return PMPI_Wait(&r, s); }
B(Waitall, (int k, MPI_Request r[], MPI_Status s[])) { for (int i = 0; i < k; i++) PMPI_Wait(r + i, s == MPI_STATUSES_IGNORE ? MPI_STATUS_IGNORE : s + i); return 0; }
B(Sendrecv, (const void *b, int c, MPI_Datatype t, int to, int tag, void *b2, int c2, MPI_Datatype t2, int from, int tag2, MPI_Comm m, MPI_Status *s)) {
    PMPI_Send(b, c, t, to, tag, m); return PMPI_Recv(b2, c2, t2, from, tag2, m, s);
}
static int active(MPI_Request h) { return of(h) != NULL; }
static int any_active(int k, MPI_Request r[]) { for (int i = 0; i < k; i++) if (active(r[i])) return 1; return 0; }
B(Testany, (int k, MPI_Request r[], int *at, int *flag, MPI_Status *s)) {
    *at = MPI_UNDEFINED; *flag = !any_active(k, r);
    if (*flag) { fill(s, MPI_ANY_SOURCE, MPI_ANY_TAG, 0); return 0; }
    lock(); progress();
    for (int i = 0; i < k && !*flag; i++) if (active(r[i]) && is_done(of(r[i]))) { *flag = 1; *at = i; end(r + i, s); }
    unlock();
    if (!*flag) sched_yield();
    return 0;
}
B(Waitany, (int k, MPI_Request r[], int *at, MPI_Status *s)) {
    *at = MPI_UNDEFINED;
    if (!any_active(k, r)) { fill(s, MPI_ANY_SOURCE, MPI_ANY_TAG, 0); return 0; }
    lock();
    for (;;) {
        progress();
        for (int i = 0; i < k; i++) if (active(r[i]) && is_done(of(r[i]))) { *at = i; end(r + i, s); unlock(); return 0; }
        nap();
    }
}
B(Testsome, (int k, MPI_Request r[], int *out, int at[], MPI_Status s[])) {
    if (!any_active(k, r)) { *out = MPI_UNDEFINED; return 0; }
    *out = 0;
    lock(); progress();
    for (int i = 0; i < k; i++) if (active(r[i]) && is_done(of(r[i]))) { at[*out] = i; end(r + i, s == MPI_STATUSES_IGNORE ? NULL : s + *out); ++*out; }
    unlock();
    if (!*out) sched_yield();
    return 0;
}
B(Waitsome, (int k, MPI_Request r[], int *out, int at[], MPI_Status s[])) {
    for (;;) {
        PMPI_Testsome(k, r, out, at, s);
        if (*out) return 0;
        lock(); progress();
        int some = 0;
        for (int i = 0; i < k; i++) some |= active(r[i]) && is_done(of(r[i]));
        if (!some) nap();
        unlock();
    }
}
B(Testall, (int k, MPI_Request r[], int *flag, MPI_Status s[])) {
    lock(); progress();
    *flag = 1;
    for (int i = 0; i < k; i++) if (!is_done(of(r[i]))) *flag = 0;
    for (int i = 0; i < k && *flag; i++) end(r + i, s == MPI_STATUSES_IGNORE ? NULL : s + i);
    unlock();
    if (!*flag) sched_yield();
    return 0;
}
B(Test, (MPI_Request *r, int *flag, MPI_Status *s)) { return PMPI_Testall(1, r, flag, s == MPI_STATUS_IGNORE ? MPI_STATUSES_IGNORE : s); }
B(Request_get_status, (MPI_Request r, int *flag, MPI_Status *s)) {
    (void)s; lock(); progress(); *flag = is_done(of(r)); unlock();
    if (!*flag) sched_yield();
    return 0;
}
B(Request_free, (MPI_Request *r)) { *r = MPI_REQUEST_NULL; return 0; }
B(Cancel, (MPI_Request *r)) { struct req *q = of(*r); if (q && q->kind == 'r' && !q->done) q->kind = 'd'; return 0; }
static struct slot *find(int from, int tag, MPI_Comm m) {
    progress();
    for (struct slot *x = next_of(0); x; x = next_of(x->seq)) if (fit(x, from < 0 ? from : world(m, from), tag, ctx_of(m))) return x;
    return NULL;
}
static void tell(struct slot *x, MPI_Status *s) { fill(s, x->ctx == 1 ? 0 : x->src, x->tag, x->bytes); }
B(Iprobe, (int from, int tag, MPI_Comm m, int *flag, MPI_Status *s)) {
    lock(); struct slot *x = find(from, tag, m); *flag = x != NULL; if (x) tell(x, s); unlock();
    if (!x) sched_yield();
    return 0;
}
B(Probe, (int from, int tag, MPI_Comm m, MPI_Status *s)) { struct slot *x; lock(); while (!(x = find(from, tag, m))) nap(); tell(x, s); unlock(); return 0; }
B(Mprobe, (int from, int tag, MPI_Comm m, MPI_Message *h, MPI_Status *s)) {
    struct slot *x; lock(); while (!(x = find(from, tag, m))) nap(); tell(x, s); x->state = CLAIMED; *h = (MPI_Message)(0x9c000000u | (unsigned)(x - S->slot)); unlock(); return 0;
}
B(Improbe, (int from, int tag, MPI_Comm m, int *flag, MPI_Message *h, MPI_Status *s)) {
    lock(); struct slot *x = find(from, tag, m); *flag = x != NULL;
    if (x) { tell(x, s); x->state = CLAIMED; *h = (MPI_Message)(0x9c000000u | (unsigned)(x - S->slot)); }
    unlock(); if (!x) sched_yield(); return 0;
}
B(Imrecv, (void *b, int c, MPI_Datatype t, MPI_Message *h, MPI_Request *r)) {
    struct req *q = fresh('m'); q->buffer = b; q->bytes = c * size_of(t);
    lock(); take(S->slot + (*h & 0xffff), q); unlock(); *h = MPI_MESSAGE_NULL; *r = handle(q); return 0;
}
B(Mrecv, (void *b, int c, MPI_Datatype t, MPI_Message *h, MPI_Status *s)) { MPI_Request r; PMPI_Imrecv(b, c, t, h, &r); return PMPI_Wait(&r, s); }
B(Barrier, (MPI_Comm m)) {
    MPI_Comm own = (MPI_Comm)(0x84000000u | (unsigned)(1000 + ctx_of(m)));
    int x = 0;
    if (m == MPI_COMM_SELF) return 0;
    for (int i = 1; i < n && me == 0; i++) PMPI_Recv(&x, 1, MPI_INT, i, 1, own, MPI_STATUS_IGNORE);
    for (int i = 1; i < n && me == 0; i++) PMPI_Send(&x, 1, MPI_INT, i, 2, own);
    if (me) PMPI_Send(&x, 1, MPI_INT, 0, 1, own), PMPI_Recv(&x, 1, MPI_INT, 0, 2, own, MPI_STATUS_IGNORE);
    return 0;
}
