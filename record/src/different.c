/* Phases that are the same but for names, tags and numbers of communicators are written once. */
#include "convert.h"

#include <stdio.h>
#include <stdlib.h>
#include <string.h>

struct kind {
    struct bytes bytes;
    int first, times;
};
static struct kind *kinds;
static int kind_count;

/* The lines of all phases, and of each phase and rank where they begin and how many there are, so that a phase is made without going
   through all others. */
static struct lines *all_lines;
static struct part {
    int from, count;
} *lines_of_phases;

static void find_lines(int count) {
    int *starts = zeros((size_t)rank_count, sizeof *starts);
    lines_of_phases = zeros((size_t)count * (size_t)rank_count, sizeof *lines_of_phases);
    for (int p = 0; p < count; p++)
        for (int r = 0; r < rank_count; r++) {
            int end = starts[r];
            while (end < all_lines[r].count && (all_lines[r].at[end].call->phase <= p || p == count - 1)) end++;
            lines_of_phases[(size_t)p * (size_t)rank_count + (size_t)r] = (struct part){starts[r], end - starts[r]};
            starts[r] = end;
        }
    free(starts);
}

static void take_phase(int phase) {
    for (int r = 0; r < rank_count; r++) {
        struct part part = lines_of_phases[(size_t)phase * (size_t)rank_count + (size_t)r];
        lines[r] = (struct lines){.at = all_lines[r].at + part.from, .count = part.count};
    }
}

/* Takes in a phase: the kind that it is of, or a new one. */
static void add_phase(int phase, struct text *text) {
    int k = 0;
    const struct bytes *bytes = &text->bytes;
    while (k < kind_count && (kinds[k].bytes.count != bytes->count || memcmp(kinds[k].bytes.at, bytes->at, bytes->count))) k++;
    if (k == kind_count) {
        kinds = room(kinds, sizeof *kinds * (size_t)(kind_count + 1));
        kinds[kind_count++] = (struct kind){*bytes, phase, 0};
        text->bytes.at = NULL;
    }
    kinds[k].times++;
}

static void write_kind(const char *name, int k) {
    char path[4000], words[80];
    snprintf(path, sizeof path, "%s.%d", name, k + 1);
    snprintf(words, sizeof words, "; phase %d, %d time%s", kinds[k].first + 1, kinds[k].times, kinds[k].times > 1 ? "s" : "");
    take_phase(kinds[k].first);
    write_text(path, kinds[k].first, words);
}

void write_phases(const char *name, int count) {
    int empty = 0;
    all_lines = lines;
    lines = zeros((size_t)rank_count, sizeof *lines);
    find_lines(count);
    for (int p = 0; p < count; p++) {
        take_phase(p);
        struct text text = make_text(p, 0, name);
        if (text.calls)
            add_phase(p, &text);
        else
            empty++;
        free_text(&text);
    }
    printf("%d phases, %d of them without a message, %d different ones:\n", count, empty, kind_count);
    for (int k = 0; k < kind_count; k++) write_kind(name, k);
    lines = all_lines;
}
