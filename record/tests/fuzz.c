/* Recordings with lines and words that are others by chance, through the converter: it may refuse them or take them, but never ends by
   a signal, by a sanitizer or for want of memory; and a text that it writes can be read.

   usage: fuzz COUNT SEED CONVERT WORK FOLDER ..      each FOLDER has a recording; MPIPROVE names the program that reads the texts */
#include <signal.h>
#include <stdio.h>
#include <stdlib.h>
#include <string.h>
#include <sys/wait.h>
#include <unistd.h>

#define MOST_RANKS 8
#define MOST_LINES 2000
static char *lines[MOST_RANKS][MOST_LINES];
static int count[MOST_RANKS], ranks;

static int chance(int of) { return of > 0 ? rand() % of : 0; }
static char *copy(const char *text) { return strcpy(malloc(strlen(text) + 1), text); }

static void read_all(const char *folder) {
    char path[4096], text[4096];
    for (ranks = 0; ranks < MOST_RANKS; ranks++) {
        snprintf(path, sizeof path, "%s/rank.%d", folder, ranks);
        FILE *file = fopen(path, "r");
        if (!file) return;
        for (count[ranks] = 0; count[ranks] < MOST_LINES - 10 && fgets(text, sizeof text, file);) lines[ranks][count[ranks]++] = copy(text);
        fclose(file);
    }
}

static void free_all(void) {
    for (int r = 0; r < ranks; r++)
        for (int i = 0; i < count[r]; i++) free(lines[r][i]);
}

/* One word of a line is left out, there twice, another one, or changes places with the next. */
static void change_words(char **line) {
    static const char *const others[] = {"0", "1", "2", "3", "7", "99", "-1", "2147483647", "99999999999999999999", "*", "-", "?", "?5", "x", ":", "@",
                                         "inter", "send", "isend", "recv", "irecv", "wait", "took", "any", "polls", "coll", "icoll", "mprobe", "mrecv",
                                         "imrecv", "probe", "free", "cancel", "other", "left", "end", "abort", "Barrier", "Bcast", "Alltoallv", "call",
                                         "comm", "group", "child", "site", "found", "failed", "cut", "threads", "mark", "MPI_Test", "MPI_Iprobe"};
    char *words[300], *text = copy(*line), made[9000] = "";
    int n = 0, at, way = chance(4);
    for (char *word = strtok(text, " \n"); word && n < 299; word = strtok(NULL, " \n")) words[n++] = word;
    if (!n) return;
    at = chance(n);
    for (int i = 0; i < n; i++) {
        const char *word = words[i];
        if (way == 0 && i == at) continue;
        if (way == 2 && i == at) word = others[chance((int)(sizeof others / sizeof *others))];
        if (way == 3 && at + 1 < n && (i == at || i == at + 1)) word = words[i == at ? at + 1 : at];
        for (int times = way == 1 && i == at ? 2 : 1; times; times--) strcat(strcat(made, *made ? " " : ""), word);
    }
    free(*line), free(text);
    *line = copy(strcat(made, "\n"));
}

static void change(void) {
    int r = chance(ranks), way = chance(8), i = chance(count[r]), k = chance(count[r]);
    if (!count[r]) return;
    if (way == 0) {
        free(lines[r][i]);
        memmove(lines[r] + i, lines[r] + i + 1, sizeof(char *) * (size_t)(--count[r] - i));
    } else if (way == 1) {
        char *last = lines[r][i];
        lines[r][i] = lines[r][k], lines[r][k] = last;
    } else if (way == 2 && count[r] < MOST_LINES) {
        int s = chance(ranks);
        char *other = copy(count[s] ? lines[s][chance(count[s])] : "\n");
        memmove(lines[r] + i + 1, lines[r] + i, sizeof(char *) * (size_t)(count[r]++ - i));
        lines[r][i] = other;
    } else if (way == 3 && !chance(4)) {
        while (count[r] > i) free(lines[r][--count[r]]);
    } else
        change_words(&lines[r][i]);
}

static void write_all(const char *work) {
    for (int r = 0; r < MOST_RANKS; r++) {
        char path[4096];
        snprintf(path, sizeof path, "%s/recording/rank.%d", work, r);
        unlink(path);
        FILE *file = r < ranks ? fopen(path, "w") : NULL;
        for (int i = 0; file && i < count[r]; i++) fputs(lines[r][i], file);
        if (file) fclose(file);
    }
}

static int run(const char *const *words, const char *out) {
    pid_t child = fork();
    if (!child) {
        if (!freopen(out, "w", stdout) || !freopen("/dev/null", "w", stderr)) _exit(127);
        alarm(20);
        execv(words[0], (char *const *)words);
        _exit(127);
    }
    int status;
    waitpid(child, &status, 0);
    return WIFEXITED(status) ? WEXITSTATUS(status) : 128 + WTERMSIG(status);
}

/* Whether the program can read the text; its answer isn't looked at. */
static int is_readable(const char *name, const char *out) {
    char text[4200], answer[200] = "";
    snprintf(text, sizeof text, "%s.mpi", name);
    const char *words[] = {getenv("MPIPROVE"), "decide", text, NULL};
    if (!words[0]) return 1;
    run(words, out);
    FILE *file = fopen(out, "r");
    if (!file || !fgets(answer, sizeof answer, file)) answer[0] = 0;
    if (file) fclose(file);
    return strncmp(answer, "refused line", 12) != 0;
}

int main(int argc, char **argv) {
    static const char *const options[] = {"--phases", "--small", "--this-run", "--leave-out", "--free-tests"};
    if (argc < 6) return 6;
    int times = atoi(argv[1]), first = atoi(argv[2]), bad = 0, taken = 0;
    char folder[4096], name[4096], out[4096];
    snprintf(folder, sizeof folder, "%s/recording", argv[4]);
    snprintf(name, sizeof name, "%s/text", argv[4]);
    snprintf(out, sizeof out, "%s/out", argv[4]);
    for (int seed = first; seed < first + times; seed++) {
        srand((unsigned)seed);
        read_all(argv[5 + chance(argc - 5)]);
        if (!ranks) return 5;
        for (int k = 1 + chance(3); k; k--) change();
        write_all(argv[4]);
        free_all();
        const char *words[12] = {argv[3]};
        int n = 1;
        for (int i = 0; i < 5; i++)
            if (chance(2)) words[n++] = options[i];
        if (chance(3) == 0) words[n++] = "--collectives", words[n++] = "most";
        words[n++] = folder, words[n++] = name;
        int status = run(words, out), wrong = status > 3 && status != 5;
        if (status <= 2) taken++;
        if (wrong) printf("%d: status %d\n", seed, status);
        if (status == 0 && !is_readable(name, out)) wrong = 1, printf("%d: a text that can't be read\n", seed);
        bad += wrong;
    }
    printf("%d recordings, %d of them taken; %d are wrong\n", times, taken, bad);
    return bad != 0;
}
