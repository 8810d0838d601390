/* Stands between the program and the C library, by LD_PRELOAD, and refuses what it is told to.

   REFUSE=KIND:K:HOW:ANSWER  the K-th call of the kind, from 1: memory, threads, open, read, write, sync or close. HOW is `alone`, or
                             `on` for all later ones too. ANSWER is the number of an error, `short` (one byte is read or written)
                             or `nothing` (none is). Memory that is refused is NULL, and a thread EAGAIN, whatever ANSWER says.
   REFUSE_SOME=SEED:N        N in a thousand of the calls for memory and for threads, by a generator that starts with SEED.
   SHAKE=N                   at N in a thousand of the calls for memory a thread rests, so that the order of threads varies.
   REFUSED=FILE              the first refusal is written there: its kind and the path, or `standard input`, `output` or `error`.

   refusals.py builds it: gcc -O1 -shared -fPIC -o shim.so shim.c */
#define _GNU_SOURCE
#include <dlfcn.h>
#include <errno.h>
#include <fcntl.h>
#include <pthread.h>
#include <stdarg.h>
#include <stdio.h>
#include <stdlib.h>
#include <string.h>
#include <sys/syscall.h>
#include <time.h>
#include <unistd.h>

enum { MEMORY, THREADS, OPEN, READ, WRITE, SYNC, CLOSE, KINDS };
enum { SHORT = -1, NOTHING = -2, PATHS = 64, LONGEST = 400 };
static const char *kind_names[KINDS] = {"memory", "threads", "open", "read", "write", "sync", "close"};
static char paths[PATHS][LONGEST] = {"standard input", "standard output", "standard error"};
static long calls[KINDS], place;
static unsigned long seed;
static int ready, kind = -1, and_later, answer, in_a_thousand, shakes, was_told;
static const char *told;
static int (*start_thread)(pthread_t *, const pthread_attr_t *, void *(*)(void *), void *);

extern void *__libc_malloc(size_t), *__libc_calloc(size_t, size_t);
extern void *__libc_realloc(void *, size_t), *__libc_memalign(size_t, size_t);

__attribute__((constructor)) static void read_settings(void) {
    char kind_word[16], how[16], answer_word[16];
    const char *words = getenv("REFUSE");
    start_thread = dlsym(RTLD_NEXT, "pthread_create");
    told = getenv("REFUSED");
    if (words && sscanf(words, "%15[a-z]:%ld:%15[a-z]:%15s", kind_word, &place, how, answer_word) == 4) {
        for (int each = 0; each < KINDS; each++)
            if (!strcmp(kind_word, kind_names[each])) kind = each;
        and_later = !strcmp(how, "on");
        answer = !strcmp(answer_word, "short") ? SHORT : !strcmp(answer_word, "nothing") ? NOTHING : atoi(answer_word);
    }
    if ((words = getenv("REFUSE_SOME"))) sscanf(words, "%lu:%d", &seed, &in_a_thousand);
    if ((words = getenv("SHAKE"))) shakes = atoi(words);
    ready = 1;
}

static unsigned long mixed(unsigned long number) {
    number *= 0x9E3779B97F4A7C15ul;
    number = (number ^ number >> 31) * 0xBF58476D1CE4E5B9ul;
    return number ^ number >> 29;
}

static void tell(int of, const char *path) {
    char line[LONGEST + 20];
    if (!told || __sync_lock_test_and_set(&was_told, 1)) return;
    int length = snprintf(line, sizeof line, "%s %s\n", kind_names[of], path);
    int file = syscall(SYS_openat, AT_FDCWD, told, O_WRONLY | O_CREAT | O_TRUNC, 0644);
    syscall(SYS_write, file, line, length);
    syscall(SYS_close, file);
}

static int is_refused(int of, const char *path) {
    if (!ready) return 0;
    long number = __sync_add_and_fetch(&calls[of], 1);
    int refused = of == kind && (number == place || (and_later && number > place));
    if (of <= THREADS && in_a_thousand) refused |= mixed(seed * 1000003 + number) % 1000 < (unsigned long)in_a_thousand;
    if (refused) tell(of, path);
    return refused;
}

static int memory_is_refused(void) {
    if (shakes && ready && mixed(calls[MEMORY] + seed) % 1000 < (unsigned long)shakes) {
        struct timespec rest = {0, 100000};
        syscall(SYS_nanosleep, &rest, NULL);
    }
    if (!is_refused(MEMORY, "")) return 0;
    errno = ENOMEM;
    return 1;
}

void *malloc(size_t size) { return memory_is_refused() ? NULL : __libc_malloc(size); }
void *calloc(size_t count, size_t size) { return memory_is_refused() ? NULL : __libc_calloc(count, size); }
void *realloc(void *old, size_t size) { return memory_is_refused() ? NULL : __libc_realloc(old, size); }
void *aligned_alloc(size_t step, size_t size) { return memory_is_refused() ? NULL : __libc_memalign(step, size); }
int posix_memalign(void **made, size_t step, size_t size) {
    *made = memory_is_refused() ? NULL : __libc_memalign(step, size);
    return *made ? 0 : ENOMEM;
}

int pthread_create(pthread_t *thread, const pthread_attr_t *attributes, void *(*body)(void *), void *argument) {
    return is_refused(THREADS, "") ? EAGAIN : start_thread(thread, attributes, body, argument);
}

static const char *path_of(int file) { return file >= 0 && file < PATHS ? paths[file] : "?"; }

/* A transfer that is refused by an error or by nothing: its result; else -2, with fewer bytes where it is to be short. */
static ssize_t refused_transfer(int of, int file, size_t *size) {
    if (!is_refused(of, path_of(file))) return -2;
    if (answer == NOTHING) return 0;
    if (answer == SHORT) {
        *size = *size > 0;
        return -2;
    }
    errno = answer;
    return -1;
}

ssize_t read(int file, void *bytes, size_t size) {
    ssize_t refused = refused_transfer(READ, file, &size);
    return refused == -2 ? syscall(SYS_read, file, bytes, size) : refused;
}

ssize_t write(int file, const void *bytes, size_t size) {
    ssize_t refused = refused_transfer(WRITE, file, &size);
    return refused == -2 ? syscall(SYS_write, file, bytes, size) : refused;
}

ssize_t __write(int file, const void *bytes, size_t size) { return write(file, bytes, size); }

int open(const char *path, int flags, ...) {
    va_list rest;
    va_start(rest, flags);
    int mode = va_arg(rest, int);
    va_end(rest);
    if (is_refused(OPEN, path)) {
        errno = answer;
        return -1;
    }
    int file = syscall(SYS_openat, AT_FDCWD, path, flags, mode);
    if (file >= 0 && file < PATHS) snprintf(paths[file], LONGEST, "%s", path);
    return file;
}

int fsync(int file) {
    if (!is_refused(SYNC, path_of(file))) return syscall(SYS_fsync, file);
    errno = answer;
    return -1;
}

/* As Linux does, the file is closed also where an error is told. */
int close(int file) {
    int refused = is_refused(CLOSE, path_of(file));
    int closed = syscall(SYS_close, file);
    if (!refused) return closed;
    errno = answer;
    return -1;
}
