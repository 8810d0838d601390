/* How a call in front of the library's begins and ends. <mpi.h> isn't read here: some calls hand on arguments of which nothing is known. */
#ifndef CALLS_H
#define CALLS_H

#define EXPORTED __attribute__((visibility("default")))

int enter(void);     /* 1 where a call of the program itself begins; then the tables are held */
void release(void);  /* while the call is carried out they are not */
void hold(void);
void leave(void);
void *real_call(const char *name);

/* A line of the recording is put together and then written at once. */
void begin_call(const char *function, const char *operation);
void end_call(void);

int leave_word(const char *name);  /* a file that tells the converter why there is no recording; 0: it could not be made */
int is_recorded(void);              /* whether MPI_Init was seen */

#endif
