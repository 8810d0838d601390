/* The recording of one rank: its file and its lines, and which calls are the program's own. */
#define _GNU_SOURCE
#include "recorder.h"

#include <dlfcn.h>
#include <errno.h>
#include <fcntl.h>
#include <pthread.h>
#include <stdarg.h>
#include <stdio.h>
#include <stdlib.h>
#include <string.h>
#include <sys/mman.h>
#include <sys/stat.h>
#include <sys/syscall.h>
#include <unistd.h>
#include <unwind.h>

#define MOST_FRAMES 24
#define KEPT_FRAMES 6

static pthread_mutex_t lock = PTHREAD_MUTEX_INITIALIZER;
static _Thread_local int depth;
static int file = -1;
static char path[4096];
static int begun;        /* MPI_Init was seen */
static int ended;        /* MPI_Finalize was seen */
static int by_marks;     /* only what stands between two marks is recorded */
static int inside_marks = 1;
static long most_calls;  /* 0: no limit */
static long calls;
static long shaken;      /* 0: calls are not delayed */
static char *first_page; /* of the recording, or NULL */
static char *inside;     /* in the recording: whether the rank is inside of a call */
static long thread_seen;
static int threads_told;

static char *line;
static size_t line_length, line_room;

void *room(void *old, size_t bytes) {
    void *place = realloc(old, bytes);
    if (!place) {
        fprintf(stderr, "record: out of memory\n");
        _exit(70);
    }
    return place;
}

void *real_call(const char *name) {
    void *place = dlsym(RTLD_NEXT, name);
    if (!place) {
        fprintf(stderr, "record: the MPI library has no %s\n", name);
        _exit(70);
    }
    return place;
}

/* ---- lines ---- */

static void put_bytes(const char *bytes, size_t count) {
    if (line_length + count >= line_room) line = room(line, line_room = (line_length + count) * 2 + 4096);
    memcpy(line + line_length, bytes, count);
    line_length += count;
}

static void put_number(long number) {
    char digits[24];
    size_t at = sizeof digits;
    unsigned long left = number < 0 ? -(unsigned long)number : (unsigned long)number;
    do digits[--at] = (char)('0' + left % 10);
    while (left /= 10);
    if (number < 0) digits[--at] = '-';
    put_bytes(digits + at, sizeof digits - at);
}

/* As printf does with %s, %d, %ld and %c, of which alone the formats are, since each call of the program comes through here. */
static void put_list(const char *format, va_list list) {
    for (const char *c = format; *c; c++) {
        size_t plain = strcspn(c, "%");
        put_bytes(c, plain);
        c += plain;
        if (!*c) return;
        switch (*++c) {
        case 's': {
            const char *word = va_arg(list, const char *);
            put_bytes(word, strlen(word));
            break;
        }
        case 'd': put_number(va_arg(list, int)); break;
        case 'l': put_number(va_arg(list, long)), c++; break;
        default: put_bytes((char[]){(char)va_arg(list, int)}, 1);
        }
    }
}

void put(const char *format, ...) {
    va_list list;
    va_start(list, format);
    put_list(format, list);
    va_end(list);
}

/* No text is to be made of a part, so what was written is taken away; where its folder can't be written its first byte is changed, in
   the page that is mapped, since the program would be killed if the file were cut there. */
static void give_up(void) {
    fprintf(stderr, "record: %s can't be written, and is taken away\n", path);
    if (unlink(path)) {
        if (first_page)
            *first_page = '?';
        else if (ftruncate(file, 0))
            fprintf(stderr, "record: %s is a part\n", path);
    }
    close(file);
    file = -1;
}

/* What the system has taken is kept, also where the process is killed. */
void write_bytes(const char *bytes, size_t length) {
    size_t done = 0;
    while (file >= 0 && done < length) {
        ssize_t n = write(file, bytes + done, length - done);
        if (n < 0 && errno == EINTR) continue;
        if (n <= 0)
            give_up();
        else
            done += (size_t)n;
    }
}

void write_line(void) {
    write_bytes(line, line_length);
    line_length = 0;
}

void new_line(void) { line_length = 0; }

void plain_line(const char *format, ...) {
    if (!inside_marks || (most_calls && calls > most_calls)) return;
    va_list list;
    va_start(list, format);
    put_list(format, list);
    va_end(list);
    put("\n");
    write_line();
}

static void begin_line(const char *function, const char *operation) {
    line_length = 0;
    put("call %s %s", function, operation);
}

static struct poll {
    char *line;
    int choice, again;
} *polls;
static int poll_count, last_poll;

void begin_call(const char *function, const char *operation) {
    while (poll_count) free(polls[--poll_count].line);
    begin_line(function, operation);
}

void begin_poll(const char *function) { begin_line(function, "polls"); }

int end_poll(void) {
    put("%c", 0);
    for (int i = 0; i < poll_count; i++)
        if (!strcmp(polls[i].line, line)) {
            line_length = 0;
            if (i != last_poll && polls[i].choice && !polls[i].again++) plain_line("again %d", polls[i].choice);
            last_poll = i;
            return polls[i].choice;
        }
    last_poll = poll_count;
    polls = room(polls, sizeof *polls * (size_t)(poll_count + 1));
    polls[poll_count].line = strcpy(room(NULL, line_length), line);
    line_length--;
    end_call();
    polls[poll_count].again = 0;
    polls[poll_count].choice = new_choice(poll_count);
    return polls[poll_count++].choice;
}

/* The call sites that are told of a call, from the inside out. */
struct stack {
    int frames, kept, numbers[KEPT_FRAMES];
};

/* Where `main` returns to: nothing of the program stands behind it. NULL: it isn't known. */
static void *end_of_main;

static _Unwind_Reason_Code take_frame(struct _Unwind_Context *context, void *taken) {
    struct stack *stack = taken;
    void *address = (void *)_Unwind_GetIP(context);
    if (address == end_of_main) return _URC_END_OF_STACK;
    int number = site_number(address);
    if (number) stack->numbers[stack->kept++] = number;
    return ++stack->frames == MOST_FRAMES || stack->kept == KEPT_FRAMES ? _URC_END_OF_STACK : _URC_NO_REASON;
}

/* The last frames, the innermost first. */
struct end_of_stack {
    void *last[3];
};

static _Unwind_Reason_Code shift_frame(struct _Unwind_Context *context, void *taken) {
    void **last = ((struct end_of_stack *)taken)->last, *address = (void *)_Unwind_GetIP(context);
    if (address) last[0] = last[1], last[1] = last[2], last[2] = address;
    return _URC_NO_REASON;
}

/* The C library begins a program by two calls of its own, behind the one in which the program's file begins. */
static void find_end_of_main(void) {
    struct end_of_stack end = {{NULL, NULL, NULL}};
    Dl_info library, other, program;
    _Unwind_Backtrace(shift_frame, &end);
    if (!end.last[0] || !dladdr((void *)exit, &library) || !dladdr(end.last[0], &other) || other.dli_fbase != library.dli_fbase) return;
    if (!dladdr(end.last[1], &other) || other.dli_fbase != library.dli_fbase || !dladdr(end.last[2], &program)) return;
    if (program.dli_fbase != library.dli_fbase) end_of_main = end.last[0];
}

void end_call(void) {
    if (!inside_marks || (most_calls && calls > most_calls)) {
        line_length = 0;
        return;
    }
    if (most_calls && calls == most_calls) {
        calls++;
        line_length = 0;
        put("cut\n");
        write_line();
        return;
    }
    calls++;
    struct stack stack = {.kept = threads_told ? 0 : python_sites(stack.numbers, KEPT_FRAMES)};
    if (!stack.kept) _Unwind_Backtrace(take_frame, &stack);
    put(" @");
    for (int i = 0; i < stack.kept; i++) put(" %d", stack.numbers[i]);
    put("\n");
    write_line();
    lines_told++;
    if (shaken) {
        shaken = (long)((unsigned long)shaken * 6364136223846793005u + 1442695040888963407u);
        usleep((useconds_t)(((unsigned long)shaken >> 33) % 2000));
    }
}

void put_comm(const struct comm *comm) {
    if (comm->inter)
        put(" ?");
    else
        put(" %d", comm->id);
}

void put_peer(const struct comm *comm, int peer, int any) {
    if (peer == MPI_PROC_NULL)
        put(" -");
    else if (any && peer == MPI_ANY_SOURCE)
        put(" *");
    else if (peer < 0 || peer >= comm->size || comm->inter)
        put(" ?%d", peer);
    else
        put(" %d", comm->members[peer]);
}

void put_tag(int tag, int any) {
    if (any && tag == MPI_ANY_TAG)
        put(" *");
    else if (tag < 0)
        put(" ?%d", tag);
    else
        put(" %d", tag);
}

void put_name(int id) {
    if (id == UNKNOWN)
        put(" ?");
    else if (id != NOTHING)
        put(" %d", id);
}

long bytes_of(long count, MPI_Datatype type) {
    int size = 0;
    if (count <= 0 || type == MPI_DATATYPE_NULL) return 0;
    PMPI_Type_size(type, &size);
    return size < 0 ? count : count * (long)size;  /* beyond an int it is undefined */
}

/* ---- calls of the program, not of the library itself ---- */

int enter(void) {
    if (depth++ > 0 || !begun || ended) return 0;
    if (inside) *inside = 'i';
    pthread_mutex_lock(&lock);
    static _Thread_local long thread;
    if (!thread) thread = syscall(SYS_gettid);
    if (!thread_seen) thread_seen = thread;
    if (thread != thread_seen && !threads_told) {
        threads_told = 1;
        plain_line("threads");
    }
    return 1;
}

void hold(void) { pthread_mutex_lock(&lock); }

void release(void) { pthread_mutex_unlock(&lock); }

void leave(void) {
    if (--depth) return;
    if (inside) *inside = 'b';
    lines_told = 0;
}

int is_recorded(void) { return begun; }

/* A handler of errors is called within a call, but what it calls are the program's own calls; and where it doesn't return (it jumps,
   or throws), the call that it was called in is over. */
int begin_handler(void) {
    int before = depth;
    depth = 0;
    if (inside) *inside = 'b';
    return before;
}

void end_handler(int before) {
    depth = before;
    if (inside) *inside = 'i';
}

/* The second line is `state b` behind a call and `state i` inside of one, or `state ?` where the file can't be mapped. It is changed in
   place, so it can be read of a rank that was killed. */
static void first_lines(int rank, int size) {
    char version[MPI_MAX_LIBRARY_VERSION_STRING];
    int length;
    PMPI_Get_library_version(version, &length);
    version[strcspn(version, "\n\r,")] = 0;
    line_length = 0;
    put("recording 1 %d %d %s\nstate ", rank, size, version);
    size_t at = line_length;
    put("?\n");
    write_line();
    char *page = file < 0 || at >= 4096 ? MAP_FAILED : mmap(NULL, 4096, PROT_READ | PROT_WRITE, MAP_SHARED, file, 0);
    if (page == MAP_FAILED) return;
    first_page = page;
    inside = page + at;
    *inside = 'b';
}

static const char *directory(void) {
    const char *name = getenv("RECORD_DIRECTORY");
    if (!name) name = "recording";
    mkdir(name, 0777);
    return name;
}

int leave_word(const char *name) {
    snprintf(path, sizeof path, "%s/%s", directory(), name);
    int word = open(path, O_WRONLY | O_CREAT | O_CLOEXEC, 0666);
    if (word >= 0) close(word);
    return word >= 0;
}

/* What the recorder doesn't write makes a recording a damaged one. */
static void spoil(void) {
    int other = open(path, O_WRONLY | O_APPEND | O_CLOEXEC);
    if (other < 0 || write(other, "several\n", 8) != 8) fprintf(stderr, "record: %s is of another MPI program\n", path);
    if (other >= 0) close(other);
}

/* A file that is there already is that of another program of this run, or of another run. */
static void open_recording(int rank) {
    snprintf(path, sizeof path, "%s/rank.%d", directory(), rank);
    file = open(path, O_RDWR | O_CREAT | O_EXCL | O_APPEND | O_CLOEXEC, 0666);
    if (file >= 0) return;
    int there = errno == EEXIST;
    fprintf(stderr, "record: %s %s\n", path, there ? "is there already: a second MPI program isn't recorded" : "can't be written");
    if (!there || leave_word("several")) return;
    snprintf(path, sizeof path, "%s/rank.%d", directory(), rank);
    spoil();
}

static int option(const char *name) {
    const char *text = getenv(name);
    return text ? atoi(text) : 0;
}

void start_recording(void) {
    if (begun) return;
    begun = 1;
    int rank, size;
    PMPI_Comm_rank(MPI_COMM_WORLD, &rank);
    PMPI_Comm_size(MPI_COMM_WORLD, &size);
    open_recording(rank);
    most_calls = option("RECORD_CALLS");
    if (option("RECORD_SHAKE") > 0) shaken = option("RECORD_SHAKE") * 1000003L + rank + 1;
    first_lines(rank, size);
    find_end_of_main();
    add_comm(MPI_COMM_WORLD, "world");
    add_comm(MPI_COMM_SELF, "self");
    read_outcomes(rank);
    by_marks = option("RECORD_MARKS");
    inside_marks = !by_marks;
}

/* The end is told also outside of marks. */
void end_recording(const char *function, const char *operation) {
    inside_marks = 1;
    begin_call(function, operation);
    end_call();
    end_outcomes();
    ended = 1;
    if (file >= 0) close(file);
    file = -1;
}

void pass_mark(int level) {
    if (!by_marks) return;
    if (level > 0 && !inside_marks) {
        inside_marks = 1;
        plain_line("mark 1");
    } else if (level == 0 && inside_marks) {
        plain_line("mark 0");
        inside_marks = 0;
    }
}

