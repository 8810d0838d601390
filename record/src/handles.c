/* The names of communicators, requests and messages of matched probes. */
#include "recorder.h"

#include <stdio.h>
#include <stdlib.h>
#include <string.h>

/* ---- communicators ---- */

static struct comm **comms;
static int comm_count, comm_names;
static struct comm unknown_comm = {.id = -1, .inter = 1};

struct comm *comm_of(MPI_Comm handle) {
    for (int i = 0; i < comm_count; i++)
        if (comms[i]->handle == handle) return comms[i];
    return &unknown_comm;
}

static struct comm *new_comm(MPI_Comm handle, int size) {
    forget_comm(handle);  /* one of that name may have been freed inside of another call */
    struct comm *comm = room(NULL, sizeof *comm);
    memset(comm, 0, sizeof *comm);
    comm->handle = handle;
    comm->id = comm_names++;
    comm->size = size;
    comm->members = room(NULL, sizeof(int) * (size_t)(size + 1));
    comms = room(comms, sizeof *comms * (size_t)(comm_count + 1));
    comms[comm_count++] = comm;
    return comm;
}

static void ask_members(struct comm *comm) {
    MPI_Group group, world;
    int *places = room(NULL, sizeof(int) * (size_t)(comm->size + 1));
    for (int i = 0; i < comm->size; i++) places[i] = i;
    PMPI_Comm_group(comm->handle, &group);
    PMPI_Comm_group(MPI_COMM_WORLD, &world);
    PMPI_Group_translate_ranks(group, comm->size, places, world, comm->members);
    PMPI_Group_free(&group);
    PMPI_Group_free(&world);
    free(places);
    for (int i = 0; i < comm->size; i++) comm->inter |= comm->members[i] < 0;
}

/* Told also where nothing else is, since later calls name it. */
static void tell_comm(const struct comm *comm, const char *origin) {
    new_line();
    put("comm %d %s%s", comm->id, origin, comm->inter ? " inter" : " :");
    for (int i = 0; i < comm->size && !comm->inter; i++) put(" %d", comm->members[i]);
    put("\n");
    write_line();
}

void add_comm(MPI_Comm handle, const char *origin) {
    int size = 0, inter = 0;
    if (handle == MPI_COMM_NULL) return;
    PMPI_Comm_test_inter(handle, &inter);
    PMPI_Comm_size(handle, &size);
    struct comm *comm = new_comm(handle, size);
    comm->inter = inter;
    PMPI_Comm_rank(handle, &comm->rank);
    if (!inter) ask_members(comm);
    tell_comm(comm, origin);
}

/* What is made of a communicator without a name is named by its members. */
static const char *origin_of_child(const struct comm *parent, char *text, size_t room) {
    if (parent->inter) return "group 0 of";
    snprintf(text, room, "child %d %d", parent->id, parent->children);
    return text;
}

void add_child(MPI_Comm handle, struct comm *parent) {
    char text[64];
    parent->children++;
    add_comm(handle, origin_of_child(parent, text, sizeof text));
}

void add_twin(MPI_Comm handle, struct comm *parent) {
    char text[64];
    parent->children++;
    if (handle == MPI_COMM_NULL) return;
    struct comm *comm = new_comm(handle, parent->inter ? 0 : parent->size);
    comm->inter = parent->inter;
    comm->rank = parent->rank;
    if (!comm->inter) memcpy(comm->members, parent->members, sizeof(int) * (size_t)parent->size);
    tell_comm(comm, origin_of_child(parent, text, sizeof text));
}

void forget_comm(MPI_Comm handle) {
    for (int i = 2; i < comm_count; i++)
        if (comms[i]->handle == handle) {
            /* persistent requests may still point to it, so it is not freed */
            memmove(comms + i, comms + i + 1, sizeof *comms * (size_t)(comm_count - i - 1));
            comm_count--;
            return;
        }
}

/* ---- requests ---- */

static struct request **requests;
static int request_count, request_room, request_names;

int fresh_name(void) { return ++request_names; }

/* Open MPI's Fortran bindings hand C handles of their own; fortran.c tells where the program's stand. */
_Thread_local const int *fortran_requests;

static const void *variable(const MPI_Request *handles, int i) {
    return fortran_requests ? (const void *)(fortran_requests + i) : (const void *)(handles + i);
}

static struct request *add(const MPI_Request *where, int id, char kind) {
    if (request_count == request_room) {
        request_room = request_room * 2 + 64;
        requests = room(requests, sizeof *requests * (size_t)request_room);
    }
    struct request *request = room(NULL, sizeof *request);
    memset(request, 0, sizeof *request);
    request->handle = *where;
    request->where = variable(where, 0);
    request->id = id;
    request->kind = kind;
    requests[request_count++] = request;
    return request;
}

struct request *add_request(const MPI_Request *where, int id) { return *where == MPI_REQUEST_NULL ? NULL : add(where, id, 'o'); }

struct request *add_persistent(const MPI_Request *where) { return add(where, NOTHING, 'p'); }

/* Both libraries give one handle to several sends that are complete at once. Such requests are told apart by the variable that the
   handle was stored in. Where it was moved since, or where Fortran's binding hides the variable, the oldest is taken that the list
   doesn't have yet, and that is told. */
static struct request *find(MPI_Request handle, const void *where, long list) {
    struct request *first = NULL, *exact = NULL;
    int several = 0, several_exact = 0;
    for (int i = 0; i < request_count; i++) {
        struct request *one = requests[i];
        if (one->handle != handle || one->list == list) continue;
        if (one->where == where) {
            several_exact |= exact != NULL;
            if (!exact) exact = one;
        }
        several |= first != NULL;
        if (!first) first = one;
    }
    if (exact ? several_exact : several) plain_line("moved");
    if (!exact) exact = first;
    if (exact) exact->list = list;
    return exact;
}

struct request **requests_of(int count, const MPI_Request *handles) {
    static _Thread_local struct request **found;
    static struct request unknown = {.id = UNKNOWN};
    static long lists;
    lists++;
    found = room(found, sizeof *found * (size_t)(count > 0 ? count : 1));
    for (int i = 0; i < count; i++) {
        found[i] = !handles || handles[i] == MPI_REQUEST_NULL ? NULL : find(handles[i], variable(handles, i), lists);
        if (!found[i] && handles && handles[i] != MPI_REQUEST_NULL) found[i] = &unknown;
    }
    return found;
}

int name_of(const struct request *request) { return request ? request->id : NOTHING; }

static void take_out(struct request *request) {
    int i = 0;
    while (i < request_count && requests[i] != request) i++;
    if (i == request_count) return;
    free(request);
    memmove(requests + i, requests + i + 1, sizeof *requests * (size_t)(request_count - i - 1));
    request_count--;
}

int finish(struct request *request) {
    int id = name_of(request);
    if (request && request->kind == 'p')
        request->id = NOTHING;
    else if (request)
        take_out(request);
    return id;
}

int drop(struct request *request) {
    int id = name_of(request);
    if (request) take_out(request);
    return id;
}

/* ---- messages of matched probes ---- */

static struct message {
    MPI_Message handle;
    int id;
} * messages;
static int message_count;

int add_message(const MPI_Message *where, int id) {
    messages = room(messages, sizeof *messages * (size_t)(message_count + 1));
    messages[message_count++] = (struct message){*where, id};
    return id;
}

int drop_message(const MPI_Message *where) {
    if (!where || *where == MPI_MESSAGE_NO_PROC) return NOTHING;
    for (int i = 0; i < message_count; i++)
        if (messages[i].handle == *where) {
            int id = messages[i].id;
            messages[i] = messages[--message_count];
            return id;
        }
    return UNKNOWN;
}
