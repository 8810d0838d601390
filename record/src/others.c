/* Calls that are only named. `REFUSED` ones are no part of a single path of sends, receives and collectives; `LEFT` ones are left out
   of the text. Both stand in front of the library's calls also so that what the library does inside of them isn't taken for calls of
   the program.

   All arguments of these calls are ints, addresses or offsets. Where each of them takes one register or one place of eight bytes on
   the stack, as on x86-64 and AArch64 under Linux, they can be handed on without knowing which they are; <mpi.h> is not read here. */
#include "calls.h"

typedef long word;

#define PARAMS word a, word b, word c, word d, word e, word f, word g, word h, word i, word j, word k, word l, word m, word n
#define ARGS a, b, c, d, e, f, g, h, i, j, k, l, m, n

#define ONLY_NAMED(prefix, name, operation)                           \
    EXPORTED int prefix##name(PARAMS);                                \
    EXPORTED int prefix##name(PARAMS) {                               \
        static int (*next)(PARAMS);                                   \
        if (!next) next = (int (*)(PARAMS))real_call("P" #prefix #name); \
        if (enter()) {                                                \
            begin_call(#prefix #name, operation);                     \
            end_call();                                               \
            release();                                                \
        }                                                             \
        int result = next(ARGS);                                      \
        leave();                                                      \
        return result;                                                \
    }                                                                 \
    EXPORTED int P##prefix##name(PARAMS) __attribute__((alias(#prefix #name)));

#define REFUSED(name) ONLY_NAMED(MPI_, name, "other")
#define REFUSED_EXTENSION(name) ONLY_NAMED(MPIX_, name, "other")
#define LEFT(name) ONLY_NAMED(MPI_, name, "left")

/* one-sided */
REFUSED(Win_create) REFUSED(Win_allocate) REFUSED(Win_allocate_shared) REFUSED(Win_create_dynamic) REFUSED(Win_free)
REFUSED(Win_fence) REFUSED(Win_start) REFUSED(Win_complete) REFUSED(Win_post) REFUSED(Win_wait) REFUSED(Win_test)
REFUSED(Win_lock) REFUSED(Win_lock_all) REFUSED(Win_unlock) REFUSED(Win_unlock_all) REFUSED(Win_flush) REFUSED(Win_flush_all)
REFUSED(Win_flush_local) REFUSED(Win_flush_local_all) REFUSED(Win_sync) REFUSED(Put) REFUSED(Get) REFUSED(Accumulate)
REFUSED(Get_accumulate) REFUSED(Fetch_and_op) REFUSED(Compare_and_swap) REFUSED(Rput) REFUSED(Rget) REFUSED(Raccumulate)
REFUSED(Rget_accumulate)
/* several programs */
REFUSED(Intercomm_create) REFUSED(Comm_spawn) REFUSED(Comm_spawn_multiple) REFUSED(Comm_accept)
REFUSED(Comm_connect) REFUSED(Comm_join) REFUSED(Comm_disconnect)
REFUSED(Grequest_start)
#ifdef MPI_4
REFUSED(Isendrecv) REFUSED(Isendrecv_replace) REFUSED(Intercomm_create_from_groups)
REFUSED(Psend_init) REFUSED(Precv_init) REFUSED(Pready) REFUSED(Pready_range) REFUSED(Pready_list) REFUSED(Parrived)
REFUSED(Allgather_init) REFUSED(Allgatherv_init) REFUSED(Allreduce_init) REFUSED(Alltoall_init) REFUSED(Alltoallv_init)
REFUSED(Alltoallw_init) REFUSED(Barrier_init) REFUSED(Bcast_init) REFUSED(Exscan_init) REFUSED(Gather_init) REFUSED(Gatherv_init)
REFUSED(Reduce_init) REFUSED(Reduce_scatter_init) REFUSED(Reduce_scatter_block_init) REFUSED(Scan_init) REFUSED(Scatter_init)
REFUSED(Scatterv_init)
/* counts of more than 31 bits */
REFUSED(Send_c) REFUSED(Ssend_c) REFUSED(Bsend_c) REFUSED(Rsend_c) REFUSED(Recv_c) REFUSED(Isend_c) REFUSED(Issend_c)
REFUSED(Ibsend_c) REFUSED(Irsend_c) REFUSED(Irecv_c) REFUSED(Sendrecv_c) REFUSED(Sendrecv_replace_c) REFUSED(Mrecv_c)
REFUSED(Imrecv_c) REFUSED(Send_init_c) REFUSED(Recv_init_c) REFUSED(Bcast_c) REFUSED(Reduce_c) REFUSED(Allreduce_c)
REFUSED(Gather_c) REFUSED(Gatherv_c) REFUSED(Scatter_c) REFUSED(Scatterv_c) REFUSED(Allgather_c) REFUSED(Allgatherv_c)
REFUSED(Alltoall_c) REFUSED(Alltoallv_c) REFUSED(Alltoallw_c) REFUSED(Scan_c) REFUSED(Exscan_c) REFUSED(Reduce_scatter_c)
REFUSED(Reduce_scatter_block_c)
REFUSED(Accumulate_c) REFUSED(Allgather_init_c) REFUSED(Allgatherv_init_c) REFUSED(Allreduce_init_c)
REFUSED(Alltoall_init_c) REFUSED(Alltoallv_init_c) REFUSED(Alltoallw_init_c) REFUSED(Bcast_init_c) REFUSED(Bsend_init_c)
REFUSED(Exscan_init_c) REFUSED(Gather_init_c) REFUSED(Gatherv_init_c) REFUSED(Iallgather_c) REFUSED(Iallgatherv_c)
REFUSED(Iallreduce_c) REFUSED(Ialltoall_c) REFUSED(Ialltoallv_c) REFUSED(Ialltoallw_c) REFUSED(Ibcast_c)
REFUSED(Iexscan_c) REFUSED(Igather_c) REFUSED(Igatherv_c) REFUSED(Ineighbor_allgather_c) REFUSED(Ineighbor_allgatherv_c)
REFUSED(Ineighbor_alltoall_c) REFUSED(Ineighbor_alltoallv_c) REFUSED(Ineighbor_alltoallw_c) REFUSED(Ireduce_c)
REFUSED(Ireduce_scatter_block_c) REFUSED(Ireduce_scatter_c) REFUSED(Iscan_c) REFUSED(Iscatter_c) REFUSED(Iscatterv_c)
REFUSED(Isendrecv_c) REFUSED(Isendrecv_replace_c) REFUSED(Neighbor_allgather_c) REFUSED(Neighbor_allgather_init)
REFUSED(Neighbor_allgather_init_c) REFUSED(Neighbor_allgatherv_c) REFUSED(Neighbor_allgatherv_init)
REFUSED(Neighbor_allgatherv_init_c) REFUSED(Neighbor_alltoall_c) REFUSED(Neighbor_alltoall_init)
REFUSED(Neighbor_alltoall_init_c) REFUSED(Neighbor_alltoallv_c) REFUSED(Neighbor_alltoallv_init)
REFUSED(Neighbor_alltoallv_init_c) REFUSED(Neighbor_alltoallw_c) REFUSED(Neighbor_alltoallw_init)
REFUSED(Neighbor_alltoallw_init_c) REFUSED(Put_c) REFUSED(Get_c) REFUSED(Raccumulate_c) REFUSED(Get_accumulate_c)
REFUSED(Reduce_init_c) REFUSED(Reduce_scatter_block_init_c) REFUSED(Reduce_scatter_init_c) REFUSED(Rget_accumulate_c)
REFUSED(Rget_c) REFUSED(Rput_c) REFUSED(Rsend_init_c) REFUSED(Scan_init_c) REFUSED(Scatter_init_c)
REFUSED(Scatterv_init_c) REFUSED(Ssend_init_c)
REFUSED(Win_create_c) REFUSED(Win_allocate_c) REFUSED(Win_allocate_shared_c)
REFUSED_EXTENSION(Grequest_start) REFUSED_EXTENSION(Comm_agree) REFUSED_EXTENSION(Comm_shrink) REFUSED_EXTENSION(Comm_revoke)
LEFT(Buffer_detach_c)
#else
/* persistent collectives of Open MPI before MPI 4 */
REFUSED_EXTENSION(Allgather_init) REFUSED_EXTENSION(Allgatherv_init) REFUSED_EXTENSION(Allreduce_init) REFUSED_EXTENSION(Alltoall_init)
REFUSED_EXTENSION(Alltoallv_init) REFUSED_EXTENSION(Alltoallw_init) REFUSED_EXTENSION(Barrier_init) REFUSED_EXTENSION(Bcast_init)
REFUSED_EXTENSION(Exscan_init) REFUSED_EXTENSION(Gather_init) REFUSED_EXTENSION(Gatherv_init) REFUSED_EXTENSION(Reduce_init)
REFUSED_EXTENSION(Reduce_scatter_init) REFUSED_EXTENSION(Reduce_scatter_block_init) REFUSED_EXTENSION(Scan_init)
REFUSED_EXTENSION(Scatter_init) REFUSED_EXTENSION(Scatterv_init) REFUSED_EXTENSION(Neighbor_allgather_init)
REFUSED_EXTENSION(Neighbor_allgatherv_init) REFUSED_EXTENSION(Neighbor_alltoall_init) REFUSED_EXTENSION(Neighbor_alltoallv_init)
REFUSED_EXTENSION(Neighbor_alltoallw_init)
#endif
/* its wait for messages that are in the buffer is left out */
LEFT(Buffer_detach)
/* files: no call waits for another rank by the standard */
LEFT(File_open) LEFT(File_close) LEFT(File_set_size) LEFT(File_preallocate) LEFT(File_set_view) LEFT(File_set_info)
LEFT(File_set_atomicity) LEFT(File_sync) LEFT(File_seek_shared) LEFT(File_read) LEFT(File_read_all) LEFT(File_read_at)
LEFT(File_read_at_all) LEFT(File_read_shared) LEFT(File_read_ordered) LEFT(File_write) LEFT(File_write_all) LEFT(File_write_at)
LEFT(File_write_at_all) LEFT(File_write_shared) LEFT(File_write_ordered) LEFT(File_read_all_begin) LEFT(File_read_all_end)
LEFT(File_read_at_all_begin) LEFT(File_read_at_all_end) LEFT(File_read_ordered_begin) LEFT(File_read_ordered_end)
LEFT(File_write_all_begin) LEFT(File_write_all_end) LEFT(File_write_at_all_begin) LEFT(File_write_at_all_end)
LEFT(File_write_ordered_begin) LEFT(File_write_ordered_end) LEFT(File_iread) LEFT(File_iread_at) LEFT(File_iread_all)
LEFT(File_iread_at_all) LEFT(File_iread_shared) LEFT(File_iwrite) LEFT(File_iwrite_at) LEFT(File_iwrite_all)
LEFT(File_iwrite_at_all) LEFT(File_iwrite_shared)
#ifdef MPI_4
LEFT(File_read_c) LEFT(File_read_all_c) LEFT(File_read_at_c) LEFT(File_read_at_all_c) LEFT(File_read_shared_c) LEFT(File_read_ordered_c)
LEFT(File_write_c) LEFT(File_write_all_c) LEFT(File_write_at_c) LEFT(File_write_at_all_c) LEFT(File_write_shared_c)
LEFT(File_write_ordered_c) LEFT(File_read_all_begin_c) LEFT(File_read_at_all_begin_c) LEFT(File_read_ordered_begin_c)
LEFT(File_write_all_begin_c) LEFT(File_write_at_all_begin_c) LEFT(File_write_ordered_begin_c) LEFT(File_iread_c) LEFT(File_iread_at_c)
LEFT(File_iread_all_c) LEFT(File_iread_at_all_c) LEFT(File_iread_shared_c) LEFT(File_iwrite_c) LEFT(File_iwrite_at_c)
LEFT(File_iwrite_all_c) LEFT(File_iwrite_at_all_c) LEFT(File_iwrite_shared_c)

/* A program that begins with an MPI session (MPI 4.1, 11.3) has no MPI_COMM_WORLD, by which all else is named. */
EXPORTED int MPI_Session_init(word a, word b, word c);
EXPORTED int MPI_Session_init(word a, word b, word c) {
    static int (*next)(word, word, word);
    if (!next) next = (int (*)(word, word, word))real_call("PMPI_Session_init");
    if (enter()) {
        begin_call("MPI_Session_init", "other");
        end_call();
        release();
    } else if (!is_recorded())
        leave_word("sessions");
    int result = next(a, b, c);
    leave();
    return result;
}
EXPORTED int PMPI_Session_init(word a, word b, word c) __attribute__((alias("MPI_Session_init")));
#endif
