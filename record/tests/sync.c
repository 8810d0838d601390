/* A library in front of MPI's that makes standard sends synchronous. A program that hangs with it leans on buffering: a check that knows
   nothing of the recorder. */
#include <mpi.h>

#define TO const void *buffer, int count, MPI_Datatype type, int peer, int tag, MPI_Comm comm
#define TO_ARGS buffer, count, type, peer, tag, comm

int MPI_Send(TO) { return PMPI_Ssend(TO_ARGS); }
int MPI_Isend(TO, MPI_Request *request) { return PMPI_Issend(TO_ARGS, request); }
int MPI_Send_init(TO, MPI_Request *request) { return PMPI_Ssend_init(TO_ARGS, request); }

/* Open MPI's Fortran bindings call these. */
int PMPI_Send(TO) __attribute__((alias("MPI_Send")));
int PMPI_Isend(TO, MPI_Request *request) __attribute__((alias("MPI_Isend")));
int PMPI_Send_init(TO, MPI_Request *request) __attribute__((alias("MPI_Send_init")));
