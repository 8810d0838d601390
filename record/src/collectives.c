/* Collective calls, blocking and nonblocking, and those that make communicators.

   A line tells the kind, the communicator, the root or `-`, and how many bytes of this rank matter for others, or of others for it:
   what it gives to the root, what it takes from the root, or what each takes. Of a call with sizes of its own for each pair it tells
   from which ranks something comes. */
#include "recorder.h"

#include <stddef.h>
#include <stdio.h>
#include <stdlib.h>

static _Thread_local int keep;

static void put_root(const struct comm *comm, int root) {
    if (root < 0 || root >= comm->size || comm->inter)
        put(" ?%d", root);
    else
        put(" %d", comm->members[root]);
}

/* `request` is where a nonblocking one stores its handle. */
static void begin_collective(const char *function, const char *kind, const struct comm *comm, const MPI_Request *request) {
    begin_call(function, request ? "icoll" : "coll");
    if (request) put(" %d", keep = fresh_name());
    put(" %s", kind);
    put_comm(comm);
}

static void tell(const char *function, const char *kind, MPI_Comm handle, const MPI_Request *request, long bytes) {
    begin_collective(function, kind, comm_of(handle), request);
    put(" - %ld", bytes);
    end_call();
}

static void tell_rooted(const char *function, const char *kind, MPI_Comm handle, const MPI_Request *request, int root, long bytes) {
    struct comm *comm = comm_of(handle);
    begin_collective(function, kind, comm, request);
    put_root(comm, root);
    put(" %ld", bytes);
    end_call();
}

/* What the rank gives to others or takes, where it may be told to use the buffer in place. */
static long given(MPI_Comm handle, const void *sendbuf, int sendcount, MPI_Datatype sendtype, const int *recvcounts, int recvcount, MPI_Datatype recvtype) {
    if (sendbuf != MPI_IN_PLACE) return bytes_of(sendcount, sendtype);
    return bytes_of(recvcounts ? recvcounts[comm_of(handle)->rank] : recvcount, recvtype);  /* of unknown ones the rank is 0 */
}

static int is_root(MPI_Comm handle, int root) { return comm_of(handle)->rank == root; }

static void tell_pairs(const char *function, const char *kind, MPI_Comm handle, const MPI_Request *request, const int *recvcounts,
                       MPI_Datatype type, const MPI_Datatype *types) {
    struct comm *comm = comm_of(handle);
    int size = comm->inter || !recvcounts ? 0 : comm->size;
    long bytes = 0;
    begin_collective(function, kind, comm, request);
    for (int i = 0; i < size; i++) bytes += bytes_of(recvcounts[i], types ? types[i] : type);
    put(" - %ld", bytes);
    for (int i = 0; i < size; i++)
        if (bytes_of(recvcounts[i], types ? types[i] : type) > 0) put(" %d", comm->members[i]);
    end_call();
}

/* Each call and its nonblocking form: NAME, its parameters, its arguments, and how it is told. */
#define BOTH(name, small, params, args, telling)                                             \
    WRAP(name, params, args, const MPI_Request *request = NULL; telling, )                   \
    WRAP_NONBLOCKING(I##small, params, args, telling)
#define UNPACK(...) __VA_ARGS__
#define WRAP_NONBLOCKING(name, params, args, telling)                                        \
    WRAP(name, (UNPACK params, MPI_Request * request), (UNPACK args, request), telling,      \
         if (result == MPI_SUCCESS) add_request(request, keep);)

BOTH(Barrier, barrier, (MPI_Comm comm), (comm), tell(function, "Barrier", comm, request, 1);)
BOTH(Bcast, bcast, (void *buffer, int count, MPI_Datatype type, int root, MPI_Comm comm), (buffer, count, type, root, comm),
     tell_rooted(function, "Bcast", comm, request, root, bytes_of(count, type));)
BOTH(Reduce, reduce, (const void *sendbuf, void *recvbuf, int count, MPI_Datatype type, MPI_Op op, int root, MPI_Comm comm),
     (sendbuf, recvbuf, count, type, op, root, comm), tell_rooted(function, "Reduce", comm, request, root, bytes_of(count, type));)
BOTH(Allreduce, allreduce, (const void *sendbuf, void *recvbuf, int count, MPI_Datatype type, MPI_Op op, MPI_Comm comm),
     (sendbuf, recvbuf, count, type, op, comm), tell(function, "Allreduce", comm, request, bytes_of(count, type));)
BOTH(Scan, scan, (const void *sendbuf, void *recvbuf, int count, MPI_Datatype type, MPI_Op op, MPI_Comm comm),
     (sendbuf, recvbuf, count, type, op, comm), tell(function, "Scan", comm, request, bytes_of(count, type));)
BOTH(Exscan, exscan, (const void *sendbuf, void *recvbuf, int count, MPI_Datatype type, MPI_Op op, MPI_Comm comm),
     (sendbuf, recvbuf, count, type, op, comm), tell(function, "Exscan", comm, request, bytes_of(count, type));)
BOTH(Reduce_scatter_block, reduce_scatter_block,
     (const void *sendbuf, void *recvbuf, int count, MPI_Datatype type, MPI_Op op, MPI_Comm comm), (sendbuf, recvbuf, count, type, op, comm),
     tell(function, "Reduce_scatter_block", comm, request, bytes_of(count, type));)
BOTH(Reduce_scatter, reduce_scatter,
     (const void *sendbuf, void *recvbuf, const int counts[], MPI_Datatype type, MPI_Op op, MPI_Comm comm),
     (sendbuf, recvbuf, counts, type, op, comm),
     tell(function, "Reduce_scatter", comm, request, comm_of(comm)->inter || !counts ? 0 : bytes_of(counts[comm_of(comm)->rank], type));)

BOTH(Gather, gather,
     (const void *sendbuf, int sendcount, MPI_Datatype sendtype, void *recvbuf, int recvcount, MPI_Datatype recvtype, int root, MPI_Comm comm),
     (sendbuf, sendcount, sendtype, recvbuf, recvcount, recvtype, root, comm),
     tell_rooted(function, "Gather", comm, request, root, is_root(comm, root) ? 0 : bytes_of(sendcount, sendtype));)
BOTH(Gatherv, gatherv,
     (const void *sendbuf, int sendcount, MPI_Datatype sendtype, void *recvbuf, const int recvcounts[], const int displs[],
      MPI_Datatype recvtype, int root, MPI_Comm comm),
     (sendbuf, sendcount, sendtype, recvbuf, recvcounts, displs, recvtype, root, comm),
     tell_rooted(function, "Gatherv", comm, request, root, is_root(comm, root) ? 0 : bytes_of(sendcount, sendtype));)
BOTH(Scatter, scatter,
     (const void *sendbuf, int sendcount, MPI_Datatype sendtype, void *recvbuf, int recvcount, MPI_Datatype recvtype, int root, MPI_Comm comm),
     (sendbuf, sendcount, sendtype, recvbuf, recvcount, recvtype, root, comm),
     tell_rooted(function, "Scatter", comm, request, root, is_root(comm, root) ? 0 : bytes_of(recvcount, recvtype));)
BOTH(Scatterv, scatterv,
     (const void *sendbuf, const int sendcounts[], const int displs[], MPI_Datatype sendtype, void *recvbuf, int recvcount,
      MPI_Datatype recvtype, int root, MPI_Comm comm),
     (sendbuf, sendcounts, displs, sendtype, recvbuf, recvcount, recvtype, root, comm),
     tell_rooted(function, "Scatterv", comm, request, root, is_root(comm, root) ? 0 : bytes_of(recvcount, recvtype));)
BOTH(Allgather, allgather,
     (const void *sendbuf, int sendcount, MPI_Datatype sendtype, void *recvbuf, int recvcount, MPI_Datatype recvtype, MPI_Comm comm),
     (sendbuf, sendcount, sendtype, recvbuf, recvcount, recvtype, comm),
     tell(function, "Allgather", comm, request, given(comm, sendbuf, sendcount, sendtype, 0, recvcount, recvtype));)
BOTH(Allgatherv, allgatherv,
     (const void *sendbuf, int sendcount, MPI_Datatype sendtype, void *recvbuf, const int recvcounts[], const int displs[],
      MPI_Datatype recvtype, MPI_Comm comm),
     (sendbuf, sendcount, sendtype, recvbuf, recvcounts, displs, recvtype, comm),
     tell(function, "Allgatherv", comm, request, comm_of(comm)->inter ? 0 : given(comm, sendbuf, sendcount, sendtype, recvcounts, 0, recvtype));)
BOTH(Alltoall, alltoall,
     (const void *sendbuf, int sendcount, MPI_Datatype sendtype, void *recvbuf, int recvcount, MPI_Datatype recvtype, MPI_Comm comm),
     (sendbuf, sendcount, sendtype, recvbuf, recvcount, recvtype, comm),
     tell(function, "Alltoall", comm, request, given(comm, sendbuf, sendcount, sendtype, 0, recvcount, recvtype));)
BOTH(Alltoallv, alltoallv,
     (const void *sendbuf, const int sendcounts[], const int sdispls[], MPI_Datatype sendtype, void *recvbuf, const int recvcounts[],
      const int rdispls[], MPI_Datatype recvtype, MPI_Comm comm),
     (sendbuf, sendcounts, sdispls, sendtype, recvbuf, recvcounts, rdispls, recvtype, comm),
     tell_pairs(function, "Alltoallv", comm, request, recvcounts, recvtype, 0);)
BOTH(Alltoallw, alltoallw,
     (const void *sendbuf, const int sendcounts[], const int sdispls[], const MPI_Datatype sendtypes[], void *recvbuf, const int recvcounts[],
      const int rdispls[], const MPI_Datatype recvtypes[], MPI_Comm comm),
     (sendbuf, sendcounts, sdispls, sendtypes, recvbuf, recvcounts, rdispls, recvtypes, comm),
     tell_pairs(function, "Alltoallw", comm, request, recvcounts, MPI_DATATYPE_NULL, recvtypes);)

/* ---- collectives over the neighbours of a topology ---- */

/* The ranks that this one receives from, in the order of the standard; -1 where there is none. */
static int *sources_of(MPI_Comm handle, int *count) {
    int topology = MPI_UNDEFINED, *sources = NULL;
    *count = 0;
    PMPI_Topo_test(handle, &topology);
    if (topology == MPI_DIST_GRAPH) {
        int in, out, weighted;
        PMPI_Dist_graph_neighbors_count(handle, &in, &out, &weighted);
        int *places = room(NULL, sizeof(int) * (size_t)(2 * (in + out) + 4)), *weights = places + in + out + 2;
        PMPI_Dist_graph_neighbors(handle, in, places, weights, out, places + in, weights + in);
        *count = in;
        sources = places;
    } else if (topology == MPI_GRAPH) {
        int rank;
        PMPI_Comm_rank(handle, &rank);
        PMPI_Graph_neighbors_count(handle, rank, count);
        sources = room(NULL, sizeof(int) * (size_t)(*count + 1));
        PMPI_Graph_neighbors(handle, rank, *count, sources);
    } else if (topology == MPI_CART) {
        int dims;
        PMPI_Cartdim_get(handle, &dims);
        sources = room(NULL, sizeof(int) * (size_t)(2 * dims + 1));
        for (int d = 0; d < dims; d++) {
            PMPI_Cart_shift(handle, d, 1, sources + 2 * d, sources + 2 * d + 1);
            for (int k = 0; k < 2; k++)
                if (sources[2 * d + k] == MPI_PROC_NULL) sources[2 * d + k] = -1;
        }
        *count = 2 * dims;
    }
    return sources;
}

/* Told as a collective in which the rank takes something from those that it names. */
static void tell_neighbours(const char *function, const char *kind, MPI_Comm handle, const MPI_Request *request, const int *counts, long bytes,
                            const MPI_Datatype *types) {
    struct comm *comm = comm_of(handle);
    int count = 0, *sources = comm->inter ? NULL : sources_of(handle, &count);
    begin_collective(function, kind, comm, request);
    put(" - %ld", bytes * count);
    for (int i = 0; i < count; i++)
        if (sources[i] >= 0 && (counts ? bytes_of(counts[i], types ? types[i] : MPI_BYTE) : bytes) > 0) put(" %d", comm->members[sources[i]]);
    end_call();
    free(sources);
}

BOTH(Neighbor_allgather, neighbor_allgather,
     (const void *sendbuf, int sendcount, MPI_Datatype sendtype, void *recvbuf, int recvcount, MPI_Datatype recvtype, MPI_Comm comm),
     (sendbuf, sendcount, sendtype, recvbuf, recvcount, recvtype, comm),
     tell_neighbours(function, "Neighbor_allgather", comm, request, 0, bytes_of(recvcount, recvtype), 0);)
BOTH(Neighbor_allgatherv, neighbor_allgatherv,
     (const void *sendbuf, int sendcount, MPI_Datatype sendtype, void *recvbuf, const int recvcounts[], const int displs[],
      MPI_Datatype recvtype, MPI_Comm comm),
     (sendbuf, sendcount, sendtype, recvbuf, recvcounts, displs, recvtype, comm),
     tell_neighbours(function, "Neighbor_allgatherv", comm, request, recvcounts, 1, 0);)
BOTH(Neighbor_alltoall, neighbor_alltoall,
     (const void *sendbuf, int sendcount, MPI_Datatype sendtype, void *recvbuf, int recvcount, MPI_Datatype recvtype, MPI_Comm comm),
     (sendbuf, sendcount, sendtype, recvbuf, recvcount, recvtype, comm),
     tell_neighbours(function, "Neighbor_alltoall", comm, request, 0, bytes_of(recvcount, recvtype), 0);)
BOTH(Neighbor_alltoallv, neighbor_alltoallv,
     (const void *sendbuf, const int sendcounts[], const int sdispls[], MPI_Datatype sendtype, void *recvbuf, const int recvcounts[],
      const int rdispls[], MPI_Datatype recvtype, MPI_Comm comm),
     (sendbuf, sendcounts, sdispls, sendtype, recvbuf, recvcounts, rdispls, recvtype, comm),
     tell_neighbours(function, "Neighbor_alltoallv", comm, request, recvcounts, 1, 0);)
BOTH(Neighbor_alltoallw, neighbor_alltoallw,
     (const void *sendbuf, const int sendcounts[], const MPI_Aint sdispls[], const MPI_Datatype sendtypes[], void *recvbuf, const int recvcounts[],
      const MPI_Aint rdispls[], const MPI_Datatype recvtypes[], MPI_Comm comm),
     (sendbuf, sendcounts, sdispls, sendtypes, recvbuf, recvcounts, rdispls, recvtypes, comm),
     tell_neighbours(function, "Neighbor_alltoallw", comm, request, recvcounts, 1, recvtypes);)

/* ---- calls that make communicators ---- */

/* Each of the parent's members counts those that were made of it, so all of them give it the same number. */
#define MAKES(name, params, args, needs) \
    WRAP(name, params, args, tell(function, #name, comm, 0, needs);, if (result == MPI_SUCCESS) add_child(*made, comm_of(comm));)


MAKES(Comm_dup, (MPI_Comm comm, MPI_Comm *made), (comm, made), 0)
MAKES(Comm_dup_with_info, (MPI_Comm comm, MPI_Info info, MPI_Comm *made), (comm, info, made), 0)
MAKES(Comm_split, (MPI_Comm comm, int color, int key, MPI_Comm *made), (comm, color, key, made), color != MPI_UNDEFINED)
MAKES(Comm_split_type, (MPI_Comm comm, int type, int key, MPI_Info info, MPI_Comm *made), (comm, type, key, info, made), type != MPI_UNDEFINED)
MAKES(Comm_create, (MPI_Comm comm, MPI_Group group, MPI_Comm *made), (comm, group, made), 0)
MAKES(Cart_create, (MPI_Comm comm, int dims, const int sizes[], const int periods[], int reorder, MPI_Comm *made),
      (comm, dims, sizes, periods, reorder, made), 0)
MAKES(Cart_sub, (MPI_Comm comm, const int remain[], MPI_Comm *made), (comm, remain, made), 0)
MAKES(Graph_create, (MPI_Comm comm, int nodes, const int index[], const int edges[], int reorder, MPI_Comm *made),
      (comm, nodes, index, edges, reorder, made), 0)
MAKES(Dist_graph_create,
      (MPI_Comm comm, int n, const int sources[], const int degrees[], const int destinations[], const int weights[], MPI_Info info, int reorder, MPI_Comm *made),
      (comm, n, sources, degrees, destinations, weights, info, reorder, made), 1)
MAKES(Dist_graph_create_adjacent,
      (MPI_Comm comm, int indegree, const int sources[], const int sourceweights[], int outdegree, const int destinations[],
       const int destweights[], MPI_Info info, int reorder, MPI_Comm *made),
      (comm, indegree, sources, sourceweights, outdegree, destinations, destweights, info, reorder, made), 0)

/* It is told at once what the communicator is called, though it may be used only behind the wait. */
#define MAKES_LATER(name, params, args)                                                                   \
    WRAP(name, params, args, tell(function, #name, comm, request, 0);, if (result == MPI_SUCCESS) {       \
        add_twin(*made, comm_of(comm));                                                                   \
        add_request(request, keep);                                                                       \
    })

MAKES_LATER(Comm_idup, (MPI_Comm comm, MPI_Comm *made, MPI_Request *request), (comm, made, request))
#ifdef MPI_4
MAKES_LATER(Comm_idup_with_info, (MPI_Comm comm, MPI_Info info, MPI_Comm *made, MPI_Request *request), (comm, info, made, request))
#endif

/* Of these only the new communicator's members are known to know one another, so it is named by them. */
#define ONLY_NAMED(operation) begin_call(function, operation); end_call();

static void add_group(int result, const MPI_Comm *made, const struct comm *parent, const char *word) {
    char origin[64];
    snprintf(origin, sizeof origin, "group %d %s", parent->inter ? 0 : parent->id, word);
    if (result == MPI_SUCCESS) add_comm(*made, origin);
}

/* Only the group's members call it, so it is none of the parent's collectives, and the parent's members don't count it. */
WRAP(Comm_create_group, (MPI_Comm comm, MPI_Group group, int tag, MPI_Comm *made), (comm, group, tag, made), ONLY_NAMED("left"),
     char word[16]; snprintf(word, sizeof word, "%d", tag < 0 ? 0 : tag); add_group(result, made, comm_of(comm), word);)
WRAP(Intercomm_merge, (MPI_Comm comm, int high, MPI_Comm *made), (comm, high, made), ONLY_NAMED("other"),
     add_group(result, made, comm_of(MPI_COMM_WORLD), "merge");)
#ifdef MPI_4
WRAP(Comm_create_from_group, (MPI_Group group, const char *tag, MPI_Info info, MPI_Errhandler handler, MPI_Comm *made),
     (group, tag, info, handler, made), ONLY_NAMED("other"), add_group(result, made, comm_of(MPI_COMM_WORLD), "from");)
#endif

WRAP(Comm_free, (MPI_Comm * comm), (comm), ONLY_NAMED("left") if (comm) forget_comm(*comm);, )

/* Told also where nothing else is, since maps tell it. */
static void tell_name(const struct comm *comm, const char *name) {
    if (comm->id < 0) return;
    new_line();
    put("name %d ", comm->id);
    for (const char *c = name; *c; c++) put("%c", *c < ' ' || *c > '~' ? '?' : *c);
    put("\n");
    write_line();
}

WRAP(Comm_set_name, (MPI_Comm comm, const char *name), (comm, name), , if (result == MPI_SUCCESS) tell_name(comm_of(comm), name);)

/* ---- the beginning, the end, and marks ---- */

EXPORTED int MPI_Init(int *argc, char ***argv) {
    static int (*next)(int *, char ***);
    if (!next) next = (int (*)(int *, char ***))real_call("PMPI_Init");
    enter();
    int result = next(argc, argv);
    leave();
    if (result == MPI_SUCCESS) start_recording();
    return result;
}
EXPORTED int PMPI_Init(int *argc, char ***argv) __attribute__((alias("MPI_Init")));

EXPORTED int MPI_Init_thread(int *argc, char ***argv, int required, int *provided) {
    static int (*next)(int *, char ***, int, int *);
    if (!next) next = (int (*)(int *, char ***, int, int *))real_call("PMPI_Init_thread");
    enter();
    int result = next(argc, argv, required, provided);
    leave();
    if (result == MPI_SUCCESS) start_recording();
    return result;
}
EXPORTED int PMPI_Init_thread(int *argc, char ***argv, int required, int *provided) __attribute__((alias("MPI_Init_thread")));

WRAP(Finalize, (void), (), end_recording(function, "end");, )
WRAP(Abort, (MPI_Comm comm, int code), (comm, code), end_recording(function, "abort");, )

EXPORTED int MPI_Pcontrol(const int level, ...) {
    if (enter()) {
        pass_mark(level);
        release();
    }
    leave();
    return MPI_SUCCESS;
}
EXPORTED int PMPI_Pcontrol(const int level, ...) __attribute__((alias("MPI_Pcontrol")));
