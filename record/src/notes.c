/* Memory, texts, and what is told of a recording: notes, which stand in the map, and refusals, which end the program. */
#include "convert.h"

#include <stdarg.h>
#include <stdlib.h>
#include <string.h>

static void *checked(void *at) {
    if (!at) {
        fprintf(stderr, "record: out of memory\n");
        exit(70);
    }
    return at;
}

void *room(void *old, size_t bytes) { return checked(realloc(old, bytes ? bytes : 1)); }

void *zeros(size_t count, size_t size) { return checked(calloc(count ? count : 1, size)); }

char *copy(const char *text) { return strcpy(room(NULL, strlen(text) + 1), text); }

/* ---- one place in memory for each text, so that texts are the same where their places are ---- */

static char **texts;
static size_t text_room, text_count;

static size_t hash_of(const char *text) {
    size_t hash = 14695981039346656037u;
    for (; *text; text++) hash = (hash ^ (unsigned char)*text) * 1099511628211u;
    return hash ^ hash >> 32;
}

static char **place_for(const char *text) {
    size_t at = hash_of(text) & (text_room - 1);
    while (texts[at] && strcmp(texts[at], text)) at = (at + 1) & (text_room - 1);
    return texts + at;
}

static void grow(void) {
    char **old = texts;
    size_t count = text_room;
    text_room = text_room ? text_room * 2 : 1024;
    texts = zeros(text_room, sizeof *texts);
    for (size_t i = 0; i < count; i++)
        if (old[i]) *place_for(old[i]) = old[i];
    free(old);
}

const char *same(const char *text) {
    if (text_count * 2 >= text_room) grow();
    char **place = place_for(text);
    if (!*place) {
        *place = copy(text);
        text_count++;
    }
    return *place;
}

/* ---- what is told ---- */

void fail(int status, const char *format, ...) {
    va_list list;
    va_start(list, format);
    fprintf(stderr, status == 1 ? "fault: " : "refused: ");
    vfprintf(stderr, format, list);
    fprintf(stderr, "\n");
    exit(status);
}

char **notes;
int note_count;

void note(const char *format, ...) {
    char text[1024];
    va_list list;
    va_start(list, format);
    vsnprintf(text, sizeof text, format, list);
    va_end(list);
    notes = room(notes, sizeof *notes * (size_t)(note_count + 1));
    notes[note_count++] = copy(text);
}
