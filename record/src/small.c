/* The same runs in fewer events, and with fewer pairs of a send and a receive that fit. */
#include "convert.h"

#include <stdlib.h>
#include <string.h>

/* Both operations are started before anything waits, and both are waited for: as `isend`, `recv` and the wait for the first. */
static void add_halves(int rank, const struct line *both) {
    struct line half = *both;
    int name = fresh_part(rank);
    half.word = W_ISEND, half.name = name;
    *add_line(rank, W_ISEND, both->call) = half;
    half.word = W_RECV, half.peer = both->peer2, half.tag = both->tag2;
    *add_line(rank, W_RECV, both->call) = half;
    struct line *wait = add_line(rank, W_WAIT, both->call);
    wait->list = room(NULL, sizeof(int));
    wait->list[0] = name;
    wait->count = 1;
}

static enum word blocking_word(enum word word) {
    switch (word) {
    case W_ISEND: return W_SEND;
    case W_ISSEND: return W_SSEND;
    case W_IBSEND: return W_BSEND;
    case W_IRECV: return W_RECV;
    default: return word;
    }
}

/* A start whose wait follows at once is a blocking call. Gives whether the wait has nothing left to wait for. */
static int is_joined(struct line *start, struct line *wait) {
    if (!start || blocking_word(start->word) == start->word) return 0;
    int at = 0;
    while (at < wait->count && wait->list[at] != start->name) at++;
    if (at == wait->count) return 0;
    start->word = blocking_word(start->word);
    start->remark = "with the wait for it";
    memmove(wait->list + at, wait->list + at + 1, sizeof(int) * (size_t)(wait->count - at - 1));
    return --wait->count == 0;
}

static void make_compact(int rank) {
    struct lines old = lines[rank];
    lines[rank] = (struct lines){.added = old.added};
    for (int i = 0; i < old.count; i++) {
        struct line *line = old.at + i, *last = lines[rank].count ? lines[rank].at + lines[rank].count - 1 : NULL;
        if (line->word == W_SENDRECV)
            add_halves(rank, line);
        else if (line->word != W_WAIT || !is_joined(last, line))
            *add_line(rank, line->word, line->call) = *line;
    }
    free(old.at);
}

/* ---- messages that can only be matched in order ---- */

/* All messages of one rank to another with one tag, where each receive names them. The first receive gets the first, and so on, since
   messages don't overtake: so each gets a number of its own, and fits one receive. Wildcards and probes that may find them forbid it. */
struct channel {
    int from, to, tag, bad, sends, takes, *numbers, room;
    const char *comm;
};
static struct channel *channels;
static size_t channel_room;
static int channel_count;
int message_count;

static struct channel *channel_of(int from, int to, int tag, const char *comm) {
    if ((size_t)channel_count * 2 >= channel_room) {
        struct channel *old = channels;
        size_t count = channel_room;
        channel_room = channel_room * 2 + 1024;
        channels = zeros(channel_room, sizeof *channels);
        channel_count = 0;
        for (size_t i = 0; i < count; i++)
            if (old[i].comm) *channel_of(old[i].from, old[i].to, old[i].tag, old[i].comm) = old[i];
        free(old);
    }
    size_t at = hash_of_message(from, to, tag, comm) % channel_room;
    for (; channels[at].comm; at = (at + 1) % channel_room) {
        struct channel *c = channels + at;
        if (c->from == from && c->to == to && c->tag == tag && c->comm == comm) return c;
    }
    channels[at] = (struct channel){.from = from, .to = to, .tag = tag, .comm = comm};
    channel_count++;
    return channels + at;
}

static int is_send_line(const struct line *line) { return line->comm && line->word <= W_IBSEND; }
static int is_taker_line(const struct line *line) {
    return line->comm && (line->word == W_RECV || line->word == W_IRECV || line->word == W_PROBE || line->word == W_MPROBE);
}

static int is_named(const struct line *line) { return line->peer != ANY && line->tag != ANY; }

/* The channel of a send, or of a receive or probe that names source and tag. */
static struct channel *channel_at(int rank, const struct line *line) {
    if (is_send_line(line)) return channel_of(rank, line->peer, line->tag, line->comm);
    return channel_of(line->peer, rank, line->tag, line->comm);
}

struct finder {
    int to, from, tag;
    const char *comm;
};
static struct finder *finders;
static int finder_count;

static void add_finder(int rank, const struct line *line) {
    for (int k = 0; k < finder_count; k++) {
        const struct finder *f = finders + k;
        if (f->to == rank && f->from == line->peer && f->tag == line->tag && f->comm == line->comm) return;
    }
    finders = room(finders, sizeof *finders * (size_t)(finder_count + 1));
    finders[finder_count++] = (struct finder){rank, line->peer, line->tag, line->comm};
}

static int may_find(const struct finder *finder, const struct channel *channel) {
    return finder->to == channel->to && (finder->from == ANY || finder->from == channel->from) &&
           (finder->tag == ANY || finder->tag == channel->tag) && finder->comm == channel->comm;
}

static void look_for_channels(void) {
    for (int r = 0; r < rank_count; r++)
        for (int i = 0; i < lines[r].count; i++) {
            const struct line *line = lines[r].at + i;
            if (is_send_line(line))
                channel_at(r, line);
            else if (is_taker_line(line) && is_named(line))
                channel_at(r, line)->bad |= line->word == W_PROBE;
            else if (is_taker_line(line))
                add_finder(r, line);
        }
    for (size_t i = 0; i < channel_room; i++)
        for (int k = 0; k < finder_count && channels[i].comm; k++) channels[i].bad |= may_find(finders + k, channels + i);
}

static int number_of_message(struct channel *channel, int k) {
    if (k >= channel->room) {
        int more = channel->room * 2 + 4;
        channel->numbers = room(channel->numbers, sizeof(int) * (size_t)more);
        while (channel->room < more) channel->numbers[channel->room++] = message_count++;
    }
    return channel->numbers[k];
}

static void renumber_messages(void) {
    look_for_channels();
    for (int r = 0; r < rank_count; r++)
        for (int i = 0; i < lines[r].count; i++) {
            struct line *line = lines[r].at + i;
            int send = is_send_line(line);
            if (!send && (!is_taker_line(line) || !is_named(line))) continue;
            struct channel *channel = channel_at(r, line);
            if (channel->bad) continue;
            line->tag = number_of_message(channel, send ? channel->sends++ : channel->takes++);
            line->comm = NULL;
        }
}

void make_small(void) {
    for (int r = 0; r < rank_count; r++) make_compact(r);
    renumber_messages();
}
