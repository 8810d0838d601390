/* The text of all ranks, its map, and what is counted of it. */
#include "convert.h"

#include <stdio.h>
#include <stdlib.h>
#include <string.h>

#define MOST_TAG 32767
#define MOST_COMMUNICATOR 255

/* ---- numbers of the text's own ---- */

static int number_in(struct numbers *numbers, size_t key) {
    if ((size_t)numbers->count * 2 >= numbers->room) {
        numbers->room = numbers->room * 2 + 64;
        numbers->keys = room(numbers->keys, sizeof *numbers->keys * numbers->room);
        free(numbers->places);
        numbers->places = zeros(numbers->room, sizeof *numbers->places);
        int count = numbers->count;
        for (numbers->count = 0; numbers->count < count;) number_in(numbers, numbers->keys[numbers->count]);
    }
    size_t at = (key ^ key >> 17) * 0x9E3779B97F4A7C15u % numbers->room;
    while (numbers->places[at] && numbers->keys[numbers->places[at] - 1] != key) at = (at + 1) % numbers->room;
    if (!numbers->places[at]) {
        numbers->keys[numbers->count] = key;
        numbers->places[at] = ++numbers->count;
    }
    return numbers->places[at] - 1;
}

static int in_phase(const struct line *line, int phase) {
    if (phase < 0) return 1;
    return line->call->phase == phase && !(line->call->instance && line->call->instance->cut);
}

static void use_tag(struct text *text, int tag) {
    if (tag >= 0 && tag <= MOST_TAG) text->used_tags[tag] = 1;
}

/* The tags that stand in the text as they are. */
static void find_tags(struct text *text, int phase) {
    text->used_tags = zeros(MOST_TAG + 1, 1);
    text->free_tag = MOST_TAG + 1;
    for (int r = 0; r < rank_count; r++)
        for (int i = 0; i < lines[r].count; i++) {
            const struct line *line = lines[r].at + i;
            if (!line->comm || !in_phase(line, phase)) continue;
            use_tag(text, line->tag);
            if (line->word == W_SENDRECV) use_tag(text, line->tag2);
        }
}

/* Higher tags get numbers that no tag of the text has, from the highest down. */
static int other_tag(struct text *text, int tag) {
    int which = number_in(&text->tags, (size_t)tag);
    if (which == text->tags.count - 1 && which == text->other_count) {
        do {
            if (!text->free_tag--) fail(3, "the tags of the program: more than 32,768 different ones in a text");
        } while (text->used_tags[text->free_tag]);
        text->other_tags = room(text->other_tags, sizeof(int) * (size_t)(which + 1));
        text->other_tags[text->other_count++] = text->free_tag;
    }
    return text->other_tags[which];
}

static int number_of_tag(struct text *text, int tag) {
    if (!text->plain) return number_in(&text->tags, (size_t)tag);
    return tag <= MOST_TAG ? tag : other_tag(text, tag);
}

/* ---- lines ---- */

static char *room_behind(struct bytes *bytes, size_t more) {
    if (bytes->count + more > bytes->room) bytes->at = room(bytes->at, bytes->room = (bytes->count + more) * 2);
    return bytes->at + bytes->count;
}

static void put_bytes(struct bytes *bytes, const char *from, size_t count) {
    memcpy(room_behind(bytes, count), from, count);
    bytes->count += count;
}

static void put_word(struct bytes *bytes, const char *word) { put_bytes(bytes, word, strlen(word)); }

static void put_number(struct bytes *bytes, long number) {
    char digits[24];
    size_t at = sizeof digits;
    do digits[--at] = (char)('0' + number % 10);
    while (number /= 10);
    put_bytes(bytes, digits + at, sizeof digits - at);
}

static void put_any(struct bytes *bytes, int number) {
    put_word(bytes, number == ANY ? " *" : " ");
    if (number != ANY) put_number(bytes, number);
}

static void put_name(struct bytes *bytes, const char *letter, int name) {
    put_word(bytes, letter);
    put_number(bytes, name);
}

static void put_end_of_tag(struct bytes *bytes, struct text *text, int tag) { put_any(bytes, tag == ANY ? ANY : number_of_tag(text, tag)); }

static int is_start(const struct line *line) {
    switch (line->word) {
    case W_ISEND:
    case W_ISSEND:
    case W_IBSEND:
    case W_IRECV:
    case W_MPROBE:
    case W_IMRECV: return 1;
    default: return 0;
    }
}

/* ---- numbers of the messages that stand for collective calls, and of those that `small.c` numbers: see docs/COLLECTIVES.md ---- */

#define FIRST_MEETING 128  /* the communicator of those who meet first, where the program's own leave it free */
#define MOST_MET 67108863

static int *tag_numbers, tag_numbers_for;

/* The program's own communicators have lower numbers: `world` 0, and the others from 1 on. */
static int first_meeting(const struct text *text) { return text->comms.count < FIRST_MEETING ? FIRST_MEETING : text->comms.count + 1; }

static void meet(struct text *text, struct instance *instance) {
    struct group *group = instance->group;
    if (instance->text == text->serial) return;
    if (group->text != text->serial) {
        if (!(text->meeting_count & (text->meeting_count - 1)))
            text->meetings = room(text->meetings, sizeof *text->meetings * (size_t)(text->meeting_count ? text->meeting_count * 2 : 1));
        text->meetings[text->meeting_count] = group;
        group->text = text->serial, group->number = text->meeting_count++, group->met = 0;
    }
    if (group->met > MOST_MET) fail(3, "more than 67,108,864 collective calls on communicator %s in a text", group->name);
    instance->text = text->serial, instance->place = group->met++;
}

static int has_envelope(const struct line *line) { return line->word != W_WAIT && line->word != W_MRECV && line->word != W_IMRECV; }

/* Numbers communicators, and those who meet, in the order in which they come. */
static void number_communicators(struct text *text, int phase) {
    const char *world = same("world");
    for (int r = 0; r < rank_count; r++)
        for (int i = 0; i < lines[r].count; i++) {
            const struct line *line = lines[r].at + i;
            if (!has_envelope(line) || !in_phase(line, phase)) continue;
            if (line->call->instance)
                meet(text, line->call->instance);
            else if (line->comm && line->comm != world)
                number_in(&text->comms, (size_t)line->comm);
        }
}

static void put_collective_tag(struct bytes *bytes, const struct text *text, const struct line *line) {
    const struct instance *instance = line->call->instance;
    put_any(bytes, 32 * instance->place + 2 * instance->kind_number + line->tag % 2);
    put_word(bytes, " comm");
    put_any(bytes, first_meeting(text) + instance->group->number);
}

/* In a communicator above those of all who meet. One message alone has this number, or some between other pairs of ranks. */
static void put_own_tag(struct bytes *bytes, struct text *text, const struct line *line) {
    if (line->tag >= tag_numbers_for) fail(70, "a message has no number");
    if (tag_numbers[line->tag] < 0) tag_numbers[line->tag] = text->message_count++;
    int number = tag_numbers[line->tag];
    put_any(bytes, number % (MOST_TAG + 1));
    put_word(bytes, " comm");
    put_any(bytes, first_meeting(text) + text->meeting_count + number / (MOST_TAG + 1));
}

static void put_envelope(struct bytes *bytes, struct text *text, const struct line *line) {
    static const char *world;
    if (!world) world = same("world");
    put_any(bytes, line->peer);
    if (line->call->instance) {
        put_collective_tag(bytes, text, line);
        return;
    }
    if (!line->comm) {
        put_own_tag(bytes, text, line);
        return;
    }
    put_end_of_tag(bytes, text, line->tag);
    if (line->word == W_SENDRECV) {
        put_any(bytes, line->peer2);
        put_end_of_tag(bytes, text, line->tag2);
    }
    if (line->comm == world) return;
    put_word(bytes, " comm");
    put_any(bytes, number_in(&text->comms, (size_t)line->comm) + 1);
}

static void put_line(struct bytes *bytes, struct text *text, const struct line *line, int *names, int *named) {
    static const char *const words[] = {"send", "ssend", "bsend", "isend", "issend", "ibsend", "recv", "irecv", "probe", "mprobe", "mrecv", "imrecv", "wait", "sendrecv"};
    if (is_start(line) && !names[line->name]) names[line->name] = ++*named;
    put_word(bytes, line->word == W_WAIT && line->count > 1 ? "waitall" : words[line->word]);
    if (line->word == W_WAIT)
        for (int i = 0; i < line->count; i++) put_name(bytes, " q", names[line->list[i]]);
    else if (is_start(line))
        put_name(bytes, line->word == W_MPROBE ? " h" : " q", names[line->name]);
    if (line->word == W_MRECV || line->word == W_IMRECV)
        put_name(bytes, " h", names[line->of]);
    else if (line->word != W_WAIT)
        put_envelope(bytes, text, line);
    put_word(bytes, "\n");
}

static void put_map_line(struct bytes *map, long number, int rank, const struct line *line) {
    const struct call *call = line->call;
    struct group *group = group_of(ranks + rank, call);
    put_word(map, "line ");
    put_number(map, number);
    put_word(map, ": rank ");
    put_number(map, rank);
    put_word(map, ", ");
    put_word(map, call->function);
    if (call->op != OP_WAIT && call->op != OP_TOOK && call->op != OP_MRECV && call->op != OP_IMRECV) {
        put_word(map, ", ");
        put_number(map, call->bytes);
        put_word(map, " bytes");
    }
    put_word(map, ", ");
    put_word(map, words_of(ranks + rank, call));
    if (group) group->told = 1;
    if (call->instance) {
        put_word(map, "; collective ");
        put_number(map, call->instance->number + 1);
        put_word(map, " of ");
        put_word(map, group->name);
        if (call->root >= 0) put_word(map, ", root"), put_any(map, call->root);
    } else if (!line->comm && has_envelope(line)) {
        put_word(map, "; tag");
        put_any(map, line->word == W_RECV && call->op == OP_SENDRECV ? call->tag2 : call->tag);
        put_word(map, " of ");
        put_word(map, group->name);
        put_word(map, " in the program");
    }
    if (line->remark) {
        put_word(map, "; ");
        put_word(map, line->remark);
    }
    put_word(map, callers_of(ranks + rank, call));
    put_word(map, "\n");
}

static void count_line(struct text *text, const struct line *line) {
    switch (line->word) {
    case W_WAIT: text->calls += line->count, text->events += line->count; break;
    case W_SENDRECV: text->calls += 4, text->events += 5, text->sends++; break;
    case W_RECV:
    case W_IRECV:
    case W_PROBE:
    case W_MPROBE: text->calls++, text->events += 2; break;
    case W_MRECV:
    case W_IMRECV: text->calls++, text->events++; break;
    default: text->calls++, text->events++, text->sends++;
    }
}

/* ---- pairs of a send and a receive or probe that fit ---- */

/* The sends to one rank that a receive or probe can't tell apart; source or tag may be ANY. */
struct class {
    int to, from, tag;
    const char *comm;        /* NULL: this place of the table is free */
    int first, several;      /* a source of them, and whether there are others */
    long count;
};
static struct class *classes;
static size_t class_room, class_count;

static struct class *class_of(int to, int from, int tag, const char *comm) {
    if (class_count * 2 >= class_room) {
        struct class *old = classes;
        size_t count = class_room;
        class_room = class_room * 2 + 1024;
        classes = zeros(class_room, sizeof *classes);
        for (size_t i = 0; i < count; i++)
            if (old[i].comm) {
                class_count--;
                *class_of(old[i].to, old[i].from, old[i].tag, old[i].comm) = old[i];
            }
        free(old);
    }
    size_t at = hash_of_message(from, to, tag, comm) % class_room;
    for (; classes[at].comm; at = (at + 1) % class_room)
        if (classes[at].to == to && classes[at].from == from && classes[at].tag == tag && classes[at].comm == comm) return classes + at;
    classes[at] = (struct class){to, from, tag, comm, from, 0, 0};
    class_count++;
    return classes + at;
}

static int is_send(const struct line *line) { return line->word <= W_IBSEND || line->word == W_SENDRECV; }
static int is_finder(const struct line *line) { return line->word == W_SENDRECV || (line->word >= W_RECV && line->word <= W_MPROBE); }
static int source_of(const struct line *line) { return line->word == W_SENDRECV ? line->peer2 : line->peer; }
static int tag_of(const struct line *line) { return line->word == W_SENDRECV ? line->tag2 : line->tag; }

static void add_send(int rank, const struct line *line, const int *wanted) {
    for (int wild = 0; wild < 4; wild++) {
        if (!wanted[wild]) continue;
        struct class *class = class_of(line->peer, wild & 1 ? ANY : rank, wild & 2 ? ANY : line->tag, line->comm);
        if (!class->count++) class->first = rank;
        class->several |= class->first != rank;
    }
}

static void count_finder(struct text *text, int rank, const struct line *line) {
    if (!line->comm) {
        text->pairs++;
        return;
    }
    int from = source_of(line), tag = tag_of(line);
    const struct class *class = class_of(rank, from, tag, line->comm);
    text->pairs += class->count;
    text->wild += from == ANY || tag == ANY;
    text->choices += class->several;
    if (!class->several || !line->call->asked) return;
    if (!text->asked++) text->first_asked = line->call, text->asked_rank = rank;
}

static void count_pairs(struct text *text, int phase) {
    int wanted[4] = {0};
    memset(classes, 0, class_room * sizeof *classes);
    class_count = 0;
    for (int pass = 0; pass < 3; pass++)
        for (int r = 0; r < rank_count; r++)
            for (int i = 0; i < lines[r].count; i++) {
                const struct line *line = lines[r].at + i;
                if (!in_phase(line, phase)) continue;
                if (pass == 0 && is_finder(line)) wanted[(source_of(line) == ANY) + 2 * (tag_of(line) == ANY)] = 1;
                if (pass == 1 && is_send(line) && line->comm) add_send(r, line, wanted);
                if (pass == 2 && is_finder(line)) count_finder(text, r, line);
            }
}

static void note_choices(const struct text *text) {
    if (text->asked || options.outcomes) found_path(P_ONE_OF_SEVERAL);
    if (!text->asked || options.outcomes) return;
    note("one path: %ld receives or probes may find messages of several ranks, and the program asks which one it was (first rank %d in %s): where "
         "what it does next depends on that, this text is not the program (--paths)", text->asked, text->asked_rank,
         place_of(ranks + text->asked_rank, text->first_asked));
}

void free_text(struct text *text) {
    free(text->bytes.at), free(text->map.at);
    free(text->comms.keys), free(text->comms.places), free(text->tags.keys), free(text->tags.places);
    free(text->used_tags), free(text->other_tags), free(text->meetings);
}

/* The lines of a rank; requests and handles are numbered in the order in which they come. */
static void put_rank(struct text *text, int rank, int phase) {
    static int *names, names_for;
    int named = 0;
    if (names_for < names_of(rank)) {
        names = room(names, sizeof *names * (size_t)names_of(rank));
        memset(names + names_for, 0, sizeof *names * (size_t)(names_of(rank) - names_for));
        names_for = names_of(rank);
    }
    put_word(&text->bytes, "rank");
    put_any(&text->bytes, rank);
    put_word(&text->bytes, "\n");
    text->lines++;
    for (int i = 0; i < lines[rank].count; i++) {
        struct line *line = lines[rank].at + i;
        if (!in_phase(line, phase)) continue;
        line->number = ++text->lines;
        put_line(&text->bytes, text, line, names, &named);
        if (text->plain) put_map_line(&text->map, text->lines, rank, line);
        count_line(text, line);
    }
    for (int i = 0; i < lines[rank].count; i++)
        if (is_start(lines[rank].at + i)) names[lines[rank].at[i].name] = 0;
}

static void put_map_head(FILE *map, const char *name, int phase) {
    fprintf(map, "text %s.mpi: %d ranks, recorded under %s, collectives with %s\n", name, rank_count, library,
            options.most ? "the most waiting that MPI allows: each is a barrier" : "the least waiting that MPI guarantees");
    put_end(map, phase);
    put_path(map);
    for (int i = 0; i < note_count; i++) fprintf(map, "note: %s\n", notes[i]);
    put_files(map);
}

/* ` ranks 0..3 7`, in the order of the communicator. */
static void put_members(FILE *map, const struct group *group) {
    const int *m = group->members;
    fprintf(map, " ranks");
    for (int i = 0, end; i < group->size; i = end) {
        for (end = i + 1; end < group->size && m[end] == m[end - 1] + 1;) end++;
        fprintf(map, end > i + 2 ? " %d..%d" : end > i + 1 ? " %d %d" : " %d", m[i], m[end - 1]);
    }
}

static void put_group(FILE *map, const struct group *group) {
    fprintf(map, "comm %s:", group->name);
    put_members(map, group);
    if (group->given) fprintf(map, ", named %s", group->given);
    fprintf(map, "\n");
}

static void put_map_tail(FILE *map, const struct text *text) {
    for (int g = 0; g < group_count; g++) {
        if (groups[g]->told) put_group(map, groups[g]);
        groups[g]->told = 0;
    }
    for (int i = 0; i < text->comms.count; i++) fprintf(map, "comm %d: %s\n", i + 1, (const char *)text->comms.keys[i]);
    for (int i = 0; i < text->meeting_count; i++) {
        fprintf(map, "comm %d: collectives of %s,", first_meeting(text) + i, text->meetings[i]->name);
        put_members(map, text->meetings[i]);
        fprintf(map, "\n");
    }
    for (int i = 0; i < text->tags.count; i++) fprintf(map, "tag %d: %zu in the program\n", text->other_tags[i], text->tags.keys[i]);
}

/* Messages are numbered anew in each text. */
static void forget_tags(int phase) {
    for (int r = 0; r < rank_count; r++)
        for (int i = 0; i < lines[r].count; i++) {
            const struct line *line = lines[r].at + i;
            if (!line->comm && !line->call->instance && has_envelope(line) && in_phase(line, phase)) tag_numbers[line->tag] = -1;
        }
}

static void note_numbers(const struct text *text) {
    if (text->comms.count >= FIRST_MEETING)
        note("the program's messages have %d communicators besides world, so the numbers of those of its collectives begin at %d, and not at %d",
             text->comms.count, first_meeting(text), FIRST_MEETING);
}

/* What is told before and behind the lines of a map. */
static void put_around(struct text *text, const char *name, int phase) {
    char *bytes = NULL;
    size_t size = 0;
    FILE *file = open_memstream(&bytes, &size);
    if (!file) fail(70, "out of memory");
    if (name)
        put_map_head(file, name, phase);
    else
        put_map_tail(file, text);
    int failed = ferror(file);
    if (fclose(file) || failed) fail(70, "out of memory");
    put_bytes(&text->map, bytes, size);
    free(bytes);
}

struct text make_text(int phase, int plain, const char *name) {
    static int made;
    struct text text = {.plain = plain, .serial = ++made};
    if (tag_numbers_for < message_count + 1) {
        tag_numbers_for = message_count + 1;
        tag_numbers = room(tag_numbers, sizeof(int) * (size_t)tag_numbers_for);
        memset(tag_numbers, 255, sizeof(int) * (size_t)tag_numbers_for);
    }
    number_communicators(&text, phase);
    if (plain) find_tags(&text, phase);
    put_word(&text.bytes, "ranks");
    put_any(&text.bytes, rank_count);
    put_word(&text.bytes, "\npolicy ");
    put_word(&text.bytes, options.policy);
    put_word(&text.bytes, "\n");
    text.lines = 2;
    if (plain) {
        count_pairs(&text, phase);
        if (phase < 0) note_choices(&text), note_numbers(&text);
        put_around(&text, name, phase);
    }
    for (int r = 0; r < rank_count; r++) put_rank(&text, r, phase);
    forget_tags(phase);
    if (plain) put_around(&text, NULL, phase);
    return text;
}

static void write_file(const char *name, const char *end, const char *head, const struct bytes *bytes, const char *tail) {
    char path[4096];
    snprintf(path, sizeof path, "%s.%s", name, end);
    FILE *file = fopen(path, "w");
    if (!file || fputs(head, file) < 0 || fwrite(bytes->at, 1, bytes->count, file) != bytes->count || fputs(tail, file) < 0 || fclose(file))
        fail(5, "%s can't be written", path);
}

/* The checksum of Fowler, Noll and Vo in its form 1a, of 64 bits. */
static unsigned long long sum_of(const char *bytes, size_t size) {
    unsigned long long sum = 0xcbf29ce484222325ULL;
    for (size_t i = 0; i < size; i++) sum = (sum ^ (unsigned char)bytes[i]) * 0x100000001b3ULL;
    return sum;
}

/* The first lines tell which text the map is of, and the last one that it is whole. */
static void write_map(const char *name, const struct text *text) {
    char head[100];
    snprintf(head, sizeof head, "map 1\nof %zu bytes, sum %016llx\n", text->bytes.count, sum_of(text->bytes.at, text->bytes.count));
    write_file(name, "map", head, &text->map, "end\n");
}

int comm_in_text(struct text *text, const char *comm) { return comm == same("world") ? 0 : number_in(&text->comms, (size_t)comm) + 1; }

int tag_in_text(struct text *text, int tag) { return number_of_tag(text, tag); }

static int highest_communicator(const struct text *text) {
    int next = first_meeting(text) + text->meeting_count;
    if (text->message_count) return next + (text->message_count - 1) / (MOST_TAG + 1);
    return text->meeting_count ? next - 1 : text->comms.count;
}

static const char *limits_of(const struct text *text) {
    if (text->calls > 1024) return "beyond the limit of 1,024 calls";
    if (text->bytes.count > 1048576) return "beyond the limit of 1,048,576 bytes";
    if (text->events > 1024) return "beyond the limit of 1,024 events of a proof";
    if (highest_communicator(text) > MOST_COMMUNICATOR) return "beyond the limit of 255 communicators of a proof";
    if (text->pairs > 8192) return "beyond the limit of 8,192 pairs of a proof";
    return "within the limits";
}

static void tell_text(const char *name, const struct text *text) {
    printf("%s.mpi: %d ranks, %ld calls, %ld events, %ld sends, %ld pairs, %ld wildcards, %ld of them may find several ranks; %s", name, rank_count,
           text->calls, text->events, text->sends, text->pairs, text->wild, text->choices, limits_of(text));
}

void write_text(const char *name, int phase, const char *suffix) {
    struct text text = make_text(phase, 1, name);
    write_file(name, "mpi", "", &text.bytes, "");
    write_map(name, &text);
    if (options.outcomes) write_choices(name, &text);
    for (int i = 0; i < note_count && phase < 0; i++) printf("note: %s\n", notes[i]);
    if (phase < 0) tell_end();
    tell_text(name, &text);
    printf("%s\n", suffix);
    free_text(&text);
}
