/* Calls that return an error, and the program's handlers of errors. */
#include "recorder.h"

int begin_handler(void);
void end_handler(int before);

_Thread_local int lines_told;

/* Of the first classes the libraries tell before anything is begun: an argument isn't what it has to be. */
static const struct {
    int class;
    const char *name;
} classes[] = {
    {MPI_ERR_BUFFER, "MPI_ERR_BUFFER"},     {MPI_ERR_COUNT, "MPI_ERR_COUNT"},     {MPI_ERR_TYPE, "MPI_ERR_TYPE"},
    {MPI_ERR_TAG, "MPI_ERR_TAG"},           {MPI_ERR_COMM, "MPI_ERR_COMM"},       {MPI_ERR_RANK, "MPI_ERR_RANK"},
    {MPI_ERR_ROOT, "MPI_ERR_ROOT"},         {MPI_ERR_REQUEST, "MPI_ERR_REQUEST"}, {MPI_ERR_ARG, "MPI_ERR_ARG"},
    {MPI_ERR_OP, "MPI_ERR_OP"},             {MPI_ERR_GROUP, "MPI_ERR_GROUP"},     {MPI_ERR_TOPOLOGY, "MPI_ERR_TOPOLOGY"},
    {MPI_ERR_DIMS, "MPI_ERR_DIMS"},         {MPI_ERR_INFO, "MPI_ERR_INFO"},
    {MPI_ERR_TRUNCATE, "MPI_ERR_TRUNCATE"}, {MPI_ERR_PENDING, "MPI_ERR_PENDING"}, {MPI_ERR_IN_STATUS, "MPI_ERR_IN_STATUS"},
    {MPI_ERR_INTERN, "MPI_ERR_INTERN"},     {MPI_ERR_OTHER, "MPI_ERR_OTHER"},
};
#define OF_ARGUMENTS 14

/* Told once, of a call that has a line. Of several lines (MPI_Startall) it isn't known which one failed. */
void check_result(int code) {
    int told = lines_told, class = MPI_ERR_OTHER;
    size_t at = 0, count = sizeof classes / sizeof *classes;
    if (code == MPI_SUCCESS || !told) return;
    lines_told = 0;
    PMPI_Error_class(code, &class);
    while (at < count - 1 && classes[at].class != class) at++;
    plain_line("failed %s %s", told == 1 && at < OF_ARGUMENTS ? "argument" : "call", classes[at].name);
}

/* ---- handlers ---- */

/* What stands for the program's handlers: a function for each, so that it is known which one is called. */
typedef void handler(void *, int *, ...);
#define MOST_HANDLERS 16
static handler *handlers[MOST_HANDLERS];

static void run(int which, void *object, int *code) {
    int before = begin_handler();
    hold();
    check_result(*code);
    release();
    handlers[which](object, code);
    end_handler(before);
}

#define HANDLER(n) static void handler_##n(void *object, int *code, ...) { run(n, object, code); }
HANDLER(0) HANDLER(1) HANDLER(2) HANDLER(3) HANDLER(4) HANDLER(5) HANDLER(6) HANDLER(7)
HANDLER(8) HANDLER(9) HANDLER(10) HANDLER(11) HANDLER(12) HANDLER(13) HANDLER(14) HANDLER(15)

static handler *stand_in(handler *of, const char *function) {
    static handler *const all[MOST_HANDLERS] = {handler_0, handler_1, handler_2,  handler_3,  handler_4,  handler_5,  handler_6,  handler_7,
                                                handler_8, handler_9, handler_10, handler_11, handler_12, handler_13, handler_14, handler_15};
    int at = 0;
    if (!of) return of;
    hold();
    while (at < MOST_HANDLERS && handlers[at] && handlers[at] != of) at++;
    if (at < MOST_HANDLERS)
        handlers[at] = of;
    else if (is_recorded()) {
        begin_call(function, "other");
        end_call();
    }
    release();
    return at < MOST_HANDLERS ? all[at] : of;
}

#define MAKES_HANDLER(name, type)                                                                          \
    EXPORTED int MPI_##name(type *function, MPI_Errhandler *made) {                                        \
        static int (*next)(type *, MPI_Errhandler *);                                                      \
        if (!next) next = (int (*)(type *, MPI_Errhandler *))real_call("PMPI_" #name);                     \
        return next((type *)stand_in((handler *)function, "MPI_" #name), made);                            \
    }                                                                                                      \
    EXPORTED int PMPI_##name(type *function, MPI_Errhandler *made) __attribute__((alias("MPI_" #name)));

MAKES_HANDLER(Comm_create_errhandler, MPI_Comm_errhandler_function)
MAKES_HANDLER(Win_create_errhandler, MPI_Win_errhandler_function)
MAKES_HANDLER(File_create_errhandler, MPI_File_errhandler_function)
