/* Where the program's requests stand, for Open MPI's Fortran bindings. They hand C handles of their own, and several sends that are
   complete at once have one handle; so these calls are told by the variable that Fortran's call names. The bindings of mpif.h and of
   the module `mpi` are called by the lower names, those of `mpi_f08` go through the upper ones. All arguments are addresses. */
#include "calls.h"

typedef long word;

extern _Thread_local const int *fortran_requests;

#define PARAMS word a, word b, word c, word d, word e, word f, word g, word h
#define ARGS a, b, c, d, e, f, g, h

#define HANDS(name, argument)                                                        \
    EXPORTED void ompi_##name##_f(PARAMS);                                           \
    EXPORTED void ompi_##name##_f(PARAMS) {                                          \
        static void (*next)(PARAMS);                                                 \
        if (!next) next = (void (*)(PARAMS))real_call("ompi_" #name "_f");           \
        fortran_requests = (const int *)(argument);                                  \
        next(ARGS);                                                                  \
        fortran_requests = 0;                                                        \
    }                                                                                \
    EXPORTED void mpi_##name##_(PARAMS) __attribute__((alias("ompi_" #name "_f")));  \
    EXPORTED void mpi_##name(PARAMS) __attribute__((alias("ompi_" #name "_f")));     \
    EXPORTED void mpi_##name##__(PARAMS) __attribute__((alias("ompi_" #name "_f")));

HANDS(isend, g) HANDS(issend, g) HANDS(ibsend, g) HANDS(irsend, g) HANDS(irecv, g)
HANDS(wait, a) HANDS(waitall, b) HANDS(waitany, b) HANDS(waitsome, b)
HANDS(test, a) HANDS(testall, b) HANDS(testany, b) HANDS(testsome, b)
HANDS(request_free, a) HANDS(cancel, a)
