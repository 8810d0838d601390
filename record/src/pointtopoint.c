/* Sends, receives, probes and waits. */
#include "recorder.h"

#include <stdlib.h>

#define TO const void *buffer, int count, MPI_Datatype type, int peer, int tag, MPI_Comm handle
#define TO_ARGS buffer, count, type, peer, tag, handle
#define FROM void *buffer, int count, MPI_Datatype type, int peer, int tag, MPI_Comm handle

static void put_target(const struct comm *comm, int peer, int tag) {
    put_comm(comm);
    put_peer(comm, peer, 0);
    put_tag(tag, 0);
}

static void put_source(const struct comm *comm, int peer, int tag) {
    put_comm(comm);
    put_peer(comm, peer, 1);
    put_tag(tag, 1);
}

/* ---- blocking ---- */

static void tell_send(const char *function, char mode, int count, MPI_Datatype type, int peer, int tag, MPI_Comm handle) {
    begin_call(function, "send");
    put(" %c", mode);
    put_target(comm_of(handle), peer, tag);
    put(" %ld", bytes_of(count, type));
    end_call();
}

WRAP(Send, (TO), (TO_ARGS), tell_send(function, 't', count, type, peer, tag, handle);, )
WRAP(Ssend, (TO), (TO_ARGS), tell_send(function, 's', count, type, peer, tag, handle);, )
WRAP(Bsend, (TO), (TO_ARGS), tell_send(function, 'b', count, type, peer, tag, handle);, )
WRAP(Rsend, (TO), (TO_ARGS), tell_send(function, 'r', count, type, peer, tag, handle);, )

static void tell_recv(const char *function, int count, MPI_Datatype type, int peer, int tag, MPI_Comm handle) {
    begin_call(function, "recv");
    put_source(comm_of(handle), peer, tag);
    put(" %ld", bytes_of(count, type));
    end_call();
}

/* ---- what wildcards find ---- */

static _Thread_local MPI_Status own_status, *own_statuses;
static _Thread_local int asked;   /* whether the program takes the status */
static _Thread_local int wild;    /* whether a wildcard stands in the call, which may be forced to find something */
static _Thread_local int choice;  /* the number of the call's outcome, or 0 */

/* What a wildcard found is told behind the call, and whether the program asked: the converter warns of programs that use it. The name
   is that of a receive's request, and 0 for the call itself. */
static void tell_source(int id, const struct comm *comm, const MPI_Status *status) {
    int source = status->MPI_SOURCE;
    if (!comm->inter && source >= 0 && source < comm->size) plain_line("found %d %d %d %d", id, comm->members[source], status->MPI_TAG, asked);
}

static int is_wild(int peer, int tag) { return peer == MPI_ANY_SOURCE || tag == MPI_ANY_TAG; }

#define ASK                               \
    asked = status != MPI_STATUS_IGNORE;  \
    if (!asked) status = &own_status;
#define CHOOSE                                 \
    wild = is_wild(peer, tag) && peer != MPI_PROC_NULL; \
    choice = wild ? new_choice(0) : 0;          \
    force_source(choice, handle, &peer, &tag);
#define TELL_FOUND \
    if (result == MPI_SUCCESS && wild) tell_source(0, comm_of(handle), status);

WRAP(Recv, (FROM, MPI_Status *status), (TO_ARGS, status), tell_recv(function, count, type, peer, tag, handle); ASK CHOOSE, TELL_FOUND)

static void tell_both(const char *function, MPI_Comm handle, int to, int sendtag, long sent, int from, int recvtag, long received) {
    struct comm *comm = comm_of(handle);
    begin_call(function, "sendrecv");
    put_target(comm, to, sendtag);
    put(" %ld", sent);
    put_peer(comm, from, 1);
    put_tag(recvtag, 1);
    put(" %ld", received);
    end_call();
}

WRAP(Sendrecv,
     (const void *sendbuf, int sendcount, MPI_Datatype sendtype, int to, int sendtag, void *recvbuf, int recvcount,
      MPI_Datatype recvtype, int peer, int tag, MPI_Comm handle, MPI_Status *status),
     (sendbuf, sendcount, sendtype, to, sendtag, recvbuf, recvcount, recvtype, peer, tag, handle, status),
     tell_both(function, handle, to, sendtag, bytes_of(sendcount, sendtype), peer, tag, bytes_of(recvcount, recvtype)); ASK CHOOSE, TELL_FOUND)
WRAP(Sendrecv_replace,
     (void *buffer, int count, MPI_Datatype type, int to, int sendtag, int peer, int tag, MPI_Comm handle, MPI_Status *status),
     (buffer, count, type, to, sendtag, peer, tag, handle, status),
     tell_both(function, handle, to, sendtag, bytes_of(count, type), peer, tag, bytes_of(count, type)); ASK CHOOSE, TELL_FOUND)

/* ---- nonblocking ---- */

static int tell_isend(const char *function, char mode, long bytes, struct comm *comm, int peer, int tag) {
    int id = fresh_name();
    begin_call(function, "isend");
    put(" %c %d", mode, id);
    put_target(comm, peer, tag);
    put(" %ld", bytes);
    end_call();
    return peer == MPI_PROC_NULL ? NOTHING : id;
}

static int tell_irecv(const char *function, long bytes, struct comm *comm, int peer, int tag) {
    int id = fresh_name();
    begin_call(function, "irecv");
    put(" %d", id);
    put_source(comm, peer, tag);
    put(" %ld", bytes);
    end_call();
    return peer == MPI_PROC_NULL ? NOTHING : id;
}

#define WRAP_ISEND(name, mode)                                                                              \
    WRAP(name, (TO, MPI_Request * request), (TO_ARGS, request),                                             \
         int id = tell_isend(function, mode, bytes_of(count, type), comm_of(handle), peer, tag);            \
         keep = id;, if (result == MPI_SUCCESS) add_request(request, keep);)

static _Thread_local int keep;  /* the name that is given before the call and used behind it */

static void add_receive(const MPI_Request *where, MPI_Comm handle) {
    struct request *request = add_request(where, keep);
    if (!request || !wild) return;
    request->comm = comm_of(handle);
    request->peer = MPI_ANY_SOURCE;
}

WRAP_ISEND(Isend, 't')
WRAP_ISEND(Issend, 's')
WRAP_ISEND(Ibsend, 'b')
WRAP_ISEND(Irsend, 'r')
WRAP(Irecv, (FROM, MPI_Request *request), (TO_ARGS, request),
     keep = tell_irecv(function, bytes_of(count, type), comm_of(handle), peer, tag); CHOOSE
     , if (result == MPI_SUCCESS) add_receive(request, handle);)

/* ---- persistent ---- */

static void set_up(const MPI_Request *where, char mode, long bytes, MPI_Comm handle, int peer, int tag) {
    struct request *request = add_persistent(where);
    request->send = mode;
    request->comm = comm_of(handle);
    request->peer = peer;
    request->tag = tag;
    request->bytes = bytes;
}

#define WRAP_INIT(name, mode) \
    WRAP(name, (TO, MPI_Request * request), (TO_ARGS, request), , if (result == MPI_SUCCESS) set_up(request, mode, bytes_of(count, type), handle, peer, tag);)

WRAP_INIT(Send_init, 't')
WRAP_INIT(Ssend_init, 's')
WRAP_INIT(Bsend_init, 'b')
WRAP_INIT(Rsend_init, 'r')
WRAP(Recv_init, (FROM, MPI_Request *request), (TO_ARGS, request),
     , if (result == MPI_SUCCESS) set_up(request, 0, bytes_of(count, type), handle, peer, tag);)

static int is_wild_receive(const struct request *request) {
    return request && request->comm && !request->send && is_wild(request->peer, request->tag);
}

static void tell_start(const char *function, const MPI_Request *where) {
    struct request *request = requests_of(1, where)[0];
    /* what a persistent receive finds can't be forced */
    if (!request || request->kind != 'p' || (outcomes_on() && is_wild_receive(request))) {
        begin_call(function, "other");
        end_call();
        return;
    }
    request->id = request->send ? tell_isend(function, request->send, request->bytes, request->comm, request->peer, request->tag)
                                : tell_irecv(function, request->bytes, request->comm, request->peer, request->tag);
}

WRAP(Start, (MPI_Request * request), (request), tell_start(function, request);, )
WRAP(Startall, (int count, MPI_Request requests[]), (count, requests),
     for (int i = 0; i < count; i++) tell_start(function, requests ? requests + i : NULL);, )

/* ---- probes ---- */

#define TELL_PROBE(operation, id)              \
    begin_call(function, operation);           \
    if (id) put(" %d", id);                    \
    put_source(comm_of(handle), peer, tag);    \
    end_call();

WRAP(Probe, (int peer, int tag, MPI_Comm handle, MPI_Status *status), (peer, tag, handle, status), TELL_PROBE("probe", 0) ASK CHOOSE, TELL_FOUND)
WRAP(Mprobe, (int peer, int tag, MPI_Comm handle, MPI_Message *message, MPI_Status *status), (peer, tag, handle, message, status),
     keep = fresh_name(); TELL_PROBE("mprobe", keep) ASK CHOOSE,
     TELL_FOUND if (result == MPI_SUCCESS && peer != MPI_PROC_NULL) add_message(message, keep);)

/* The arguments of a probe that may fail, which are others where its outcome is forced. */
static _Thread_local struct {
    MPI_Comm handle;
    int peer, tag;
} polled;

static int tell_failed_probe(const char *function) {
    if (polled.peer == MPI_PROC_NULL) return 0;
    begin_poll(function);
    put_source(comm_of(polled.handle), polled.peer, polled.tag);
    return end_poll();
}

/* Behind the call, since only then it is known whether it succeeded; but before it where outcomes are told, since it may be forced. */
#define POLL_PROBE                                                               \
    ASK polled.handle = handle, polled.peer = peer, polled.tag = tag;            \
    wild = is_wild(peer, tag);                                                   \
    choice = outcomes_on() ? tell_failed_probe(function) : 0;                    \
    force_probe(choice, &handle, &peer, &tag);
#define TELL_POLLED(operation, id)                                               \
    handle = polled.handle, peer = polled.peer, tag = polled.tag;                \
    TELL_PROBE(operation, id) tell_choice(choice); TELL_FOUND

WRAP(Iprobe, (int peer, int tag, MPI_Comm handle, int *flag, MPI_Status *status), (peer, tag, handle, flag, status), POLL_PROBE,
     if (result == MPI_SUCCESS && !*flag) tell_failed_probe(function);
     if (result == MPI_SUCCESS && *flag && polled.peer != MPI_PROC_NULL) { TELL_POLLED("iprobe", 0) })
WRAP(Improbe, (int peer, int tag, MPI_Comm handle, int *flag, MPI_Message *message, MPI_Status *status),
     (peer, tag, handle, flag, message, status), POLL_PROBE,
     if (result == MPI_SUCCESS && !*flag) tell_failed_probe(function);
     if (result == MPI_SUCCESS && *flag && polled.peer != MPI_PROC_NULL) {
         keep = fresh_name();
         TELL_POLLED("improbe", keep)
         add_message(message, keep);
     })

WRAP(Mrecv, (void *buffer, int count, MPI_Datatype type, MPI_Message *message, MPI_Status *status), (buffer, count, type, message, status),
     begin_call(function, "mrecv"); put_name(drop_message(message)); end_call();, )
WRAP(Imrecv, (void *buffer, int count, MPI_Datatype type, MPI_Message *message, MPI_Request *request), (buffer, count, type, message, request),
     int of = drop_message(message); keep = fresh_name(); begin_call(function, "imrecv"); put(" %d", keep); put_name(of); end_call();
     if (of == NOTHING) keep = NOTHING;, if (result == MPI_SUCCESS) add_request(request, keep);)

/* ---- waits and tests ---- */

/* What the handles stand for is looked up before the call, since they are gone behind it. */
static _Thread_local struct request **held;
static _Thread_local int held_count;

static void put_names(void) {
    for (int i = 0; i < held_count; i++) put_name(name_of(held[i]));
}

static void tell_list(const char *function, const char *operation) {
    begin_call(function, operation);
    put_names();
    end_call();
}

static int tell_poll(const char *function) {
    begin_poll(function);
    put_names();
    return end_poll();
}

/* Whether something is waited for, and what comes of it can be another thing in another run. */
static int is_choice(void) {
    int some = 0;
    for (int i = 0; i < held_count; i++) some |= name_of(held[i]) != NOTHING;
    return some && outcomes_on();
}

/* Statuses of our own where a receive with a wildcard is among the requests and the program wants none. */
static MPI_Status *take_statuses(int count, MPI_Status *statuses, const MPI_Status *ignored) {
    int wild = 0;
    asked = statuses != ignored;
    for (int i = 0; i < count && !asked; i++) wild |= is_wild_receive(held[i]);
    return wild ? own_statuses = room(own_statuses, sizeof *own_statuses * (size_t)count) : statuses;
}

static void end_request(int i, const MPI_Status *status) {
    const struct comm *comm = is_wild_receive(held[i]) ? held[i]->comm : NULL;
    int id = finish(held[i]);
    if (comm && id > 0) tell_source(id, comm, status);
}

static void end_requests(int count, const MPI_Status *statuses) {
    for (int i = 0; i < count; i++) end_request(i, statuses + i);
}

/* Where a test or a wait for some took requests, they are told, and what their wildcards found. */
static void tell_took(const char *function, int count, const int *indices, const MPI_Status *statuses) {
    int some = 0;
    for (int k = 0; k < count; k++) some |= name_of(held[indices ? indices[k] : k]) != NOTHING;
    if (!some) return;
    begin_call(function, "took");
    for (int k = 0; k < count; k++) put_name(name_of(held[indices ? indices[k] : k]));
    end_call();
    tell_choice(choice);
    for (int k = 0; k < count; k++) end_request(indices ? indices[k] : k, statuses + k);
}

#define HOLD(count, requests) held = requests_of(count, requests), held_count = count;
#define ONE_STATUS(count) status = take_statuses(count, status, MPI_STATUS_IGNORE);
#define ALL_STATUSES statuses = take_statuses(count, statuses, MPI_STATUSES_IGNORE);

WRAP(Wait, (MPI_Request * request, MPI_Status *status), (request, status), HOLD(1, request) tell_list(function, "wait"); ONE_STATUS(1),
     if (result == MPI_SUCCESS) end_requests(1, status);)
WRAP(Waitall, (int count, MPI_Request requests[], MPI_Status statuses[]), (count, requests, statuses),
     HOLD(count, requests) tell_list(function, "wait"); ALL_STATUSES, if (result == MPI_SUCCESS) end_requests(count, statuses);)
/* One that waits for any or some is told before the call; so is a poll where outcomes are told, since it may be forced. */
#define WAIT_FOR(count, requests)                                                      \
    HOLD(count, requests) tell_list(function, "any");                                  \
    choice = is_choice() ? new_choice(0) : 0;
#define POLL_FOR(count, requests)                                                      \
    HOLD(count, requests) choice = is_choice() ? tell_poll(function) : 0;

WRAP(Waitany, (int count, MPI_Request requests[], int *index, MPI_Status *status), (count, requests, index, status),
     WAIT_FOR(count, requests) ONE_STATUS(count) requests = force_requests(choice, &count, requests, held);
     , end_forced(held_count, held);
     if (result == MPI_SUCCESS && *index != MPI_UNDEFINED) tell_took(function, 1, index, status);)
WRAP(Waitsome, (int count, MPI_Request requests[], int *outcount, int indices[], MPI_Status statuses[]),
     (count, requests, outcount, indices, statuses),
     WAIT_FOR(count, requests) ALL_STATUSES requests = force_requests(choice, &count, requests, held);
     , end_forced(held_count, held);
     if (result == MPI_SUCCESS && *outcount != MPI_UNDEFINED) tell_took(function, *outcount, indices, statuses);)

WRAP(Test, (MPI_Request * request, int *flag, MPI_Status *status), (request, flag, status),
     int count = 1; POLL_FOR(1, request) ONE_STATUS(1) request = force_requests(choice, &count, request, held);
     , end_forced(held_count, held);
     if (result == MPI_SUCCESS && *flag) tell_took(function, 1, NULL, status); else if (result == MPI_SUCCESS) tell_poll(function);)
WRAP(Testany, (int count, MPI_Request requests[], int *index, int *flag, MPI_Status *status), (count, requests, index, flag, status),
     POLL_FOR(count, requests) ONE_STATUS(count) requests = force_requests(choice, &count, requests, held);
     , end_forced(held_count, held);
     if (result == MPI_SUCCESS && *flag && *index != MPI_UNDEFINED) tell_took(function, 1, index, status);
     else if (result == MPI_SUCCESS && !*flag) tell_poll(function);)
WRAP(Testsome, (int count, MPI_Request requests[], int *outcount, int indices[], MPI_Status statuses[]),
     (count, requests, outcount, indices, statuses),
     POLL_FOR(count, requests) ALL_STATUSES requests = force_requests(choice, &count, requests, held);
     , end_forced(held_count, held);
     if (result == MPI_SUCCESS && *outcount > 0) tell_took(function, *outcount, indices, statuses);
     else if (result == MPI_SUCCESS && *outcount == 0) tell_poll(function);)
WRAP(Testall, (int count, MPI_Request requests[], int *flag, MPI_Status statuses[]), (count, requests, flag, statuses),
     POLL_FOR(count, requests) ALL_STATUSES requests = force_requests(choice, &count, requests, held);
     , end_forced(held_count, held);
     if (result == MPI_SUCCESS && *flag) tell_took(function, held_count, NULL, statuses);
     else if (result == MPI_SUCCESS) tell_poll(function);)
WRAP(Request_get_status, (MPI_Request request, int *flag, MPI_Status *status), (request, flag, status), ,
     begin_poll(function); end_poll();)

WRAP(Request_free, (MPI_Request * request), (request),
     HOLD(1, request) if (name_of(held[0]) != NOTHING) tell_list(function, "free");, if (result == MPI_SUCCESS) drop(held[0]);)
WRAP(Cancel, (MPI_Request * request), (request), HOLD(1, request) tell_list(function, "cancel");, )
