// What `decide` is measured beside: the same decision in C++, which nothing proves. One run of a program is made, the one that
// buffers as little as the policy allows, and with it vector clocks for the ranks that take messages of any source; then each
// send that might get to a receive before its own is looked at. docs/PROVED.md says what the proved functions promise.
#pragma once
#include <algorithm>
#include <cstdint>
#include <cstdio>
#include <cstring>
#include <memory>
#include <string>
#include <unordered_map>
#include <vector>

using u32 = uint32_t;
using u64 = uint64_t;
constexpr u32 NONE = 0xffffffffu;

enum Policy : uint8_t { ANY, NEVER, ALWAYS };
enum Kind : uint8_t { SEND, RECV, MPROBE, PROBE, MRECV, WAIT };
enum Mode : uint8_t { STANDARD, SYNCHRONOUS, BUFFERED };

// 20 bytes for each call; calls stand in rank order, and name one another by their places.
struct Call {
    Kind kind;
    Mode mode = STANDARD;
    bool blocking = true;
    uint8_t comm = 0;
    u32 peer = 0;        // destination, or source; NONE is any source
    u32 tag = 0;         // NONE is any tag
    u32 other = NONE;    // of a wait the operation, of a matched probe the receive on its handle
    u32 rank = 0;
};

struct Program {
    Policy policy = ANY;
    u32 ranks = 0;
    std::vector<Call> calls;
    std::vector<u32> first;    // place of each rank's first call, and the end

    void close() {
        first.assign(ranks + 1, 0);
        for (const Call &c : calls) first[c.rank + 1]++;
        for (u32 r = 0; r < ranks; r++) first[r + 1] += first[r];
    }
};

inline bool is_finder(const Call &c) { return c.kind == RECV || c.kind == MPROBE || c.kind == PROBE; }
inline bool is_taker(const Call &c) { return c.kind == RECV || c.kind == MPROBE; }
inline bool fits(const Call &s, const Call &f) {
    return s.kind == SEND && is_finder(f) && s.peer == f.rank && s.comm == f.comm && (f.peer == NONE || f.peer == s.rank) &&
           (f.tag == NONE || f.tag == s.tag);
}

// ---- queues by hash: first in, first out, in one pool of nodes

struct Key {
    u64 a, b;
    bool operator==(const Key &o) const { return a == o.a && b == o.b; }
};
struct KeyHash {
    size_t operator()(const Key &k) const {
        u64 h = k.a * 0x9e3779b97f4a7c15ull ^ (k.b + 0x7f4a7c15ull) * 0xff51afd7ed558ccdull;
        return h ^ h >> 29;
    }
};
// destination and source, communicator and tag; NONE where a pattern has a wildcard
inline Key key_of(u32 to, u32 from, uint8_t comm, u32 tag) { return {(u64)to << 32 | from, (u64)comm << 32 | tag}; }

// An open table from keys to queues: a queue that is empty keeps its place.
struct Queues {
    struct Slot {
        Key key;
        u32 head, tail;
        bool used;
    };
    struct Node {
        u32 call, next;
    };
    std::vector<Slot> slots;
    std::vector<Node> nodes;
    u32 free_list = NONE;
    size_t used = 0;

    Queues() : slots(1024, Slot{{0, 0}, NONE, NONE, false}) {}
    Slot &at(const Key &k) {
        if (used * 2 >= slots.size()) grow();
        size_t i = KeyHash()(k) & (slots.size() - 1);
        while (slots[i].used && !(slots[i].key == k)) i = (i + 1) & (slots.size() - 1);
        if (!slots[i].used) {
            slots[i] = {k, NONE, NONE, true};
            used++;
        }
        return slots[i];
    }
    Slot *find(const Key &k) {
        size_t i = KeyHash()(k) & (slots.size() - 1);
        while (slots[i].used && !(slots[i].key == k)) i = (i + 1) & (slots.size() - 1);
        return slots[i].used ? &slots[i] : nullptr;
    }
    void grow() {
        std::vector<Slot> old(slots.size() * 2, Slot{{0, 0}, NONE, NONE, false});
        old.swap(slots);
        for (Slot &s : old)
            if (s.used) {
                size_t i = KeyHash()(s.key) & (slots.size() - 1);
                while (slots[i].used) i = (i + 1) & (slots.size() - 1);
                slots[i] = s;
            }
    }
    void push(const Key &k, u32 call) {
        u32 n;
        if (free_list != NONE) {
            n = free_list;
            free_list = nodes[n].next;
        } else {
            n = nodes.size();
            nodes.push_back({});
        }
        nodes[n] = {call, NONE};
        Slot &s = at(k);
        if (s.head == NONE) s.head = n;
        else nodes[s.tail].next = n;
        s.tail = n;
    }
    void pop(Slot &s) {
        u32 n = s.head;
        s.head = nodes[n].next;
        nodes[n].next = free_list;
        free_list = n;
    }
};

enum Verdict { NO_DEADLOCK, DEADLOCK, UNKNOWN };

struct Decision {
    Verdict verdict;
    u64 matches = 0;
    u32 race_finder = NONE, race_send = NONE;
};

// The canonical run: each rank goes as far as it can, and a message is matched as soon as it can be. A standard send is
// buffered only under the policy that has each buffered. With it go, for ranks that have a finder of any source, clocks.
struct Walk {
    const Program &p;
    std::vector<u32> next;       // for each rank the place of its next call
    std::vector<u32> partner;    // for each call
    std::vector<u32> ready;      // ranks to look at
    std::vector<uint8_t> is_ready;
    Queues takers;      // posted takers by pattern
    Queues messages;    // sends that no taker has, by what patterns they fit
    std::vector<u32> waiting_probe;    // for each rank the probe that waits, or NONE
    bool any_source = false, any_tag = false;

    // ---- clocks: one entry for each rank with finders of any source, which tells how many of these are known to have found
    std::vector<u32> entry;                          // of each rank, or NONE
    std::vector<std::vector<u32>> finders;           // of each entry: its finders of any source, by the place at which they are complete
    std::vector<u32> place_in;                       // of each call: which of these it is, or NONE
    u32 width = 0;    // how many entries there are
    // Receives and matched probes of one rank that may stand for one another: they ask for the same messages, no other finder
    // stands between them, and what does returns at once.
    struct Block {
        u32 first, last, size = 1, found = 0, top = 0, from = NONE;    // `top` is the highest of their places in `finders`
        bool mixed = false;                                            // their messages come from several ranks
        std::unique_ptr<u32[]> sent, issued;                           // what their sends' issues tell; what the first one's tells
    };
    bool use_blocks = true;
    bool extras = true;    // what a larger block tells, and standard sends within blocks under `all`: more than is proved
    std::vector<Block> blocks;
    std::vector<u32> block_of;    // of each call with a place in `finders`
    std::vector<u32> known;                          // ranks x width
    std::vector<std::unique_ptr<u32[]>> issue_clock, find_clock;
    std::vector<u32> told;                           // of each send: what its issue tells of its destination's finders
    std::vector<u32> probed_by;                      // of the receive on a handle: its matched probe
    std::vector<u32> waited_at;                      // of each nonblocking call: its wait

    explicit Walk(const Program &program) : p(program) {}

    u64 steps = 0;

    void make_clocks() {
        size_t n = p.calls.size();
        entry.assign(p.ranks, NONE);
        waited_at.assign(n, NONE);
        probed_by.assign(n, NONE);
        for (u32 c = 0; c < n; c++) {
            if (p.calls[c].kind == WAIT) waited_at[p.calls[c].other] = c;
            if (p.calls[c].kind == MPROBE) probed_by[p.calls[c].other] = c;
        }
        // sends of how many ranks a finder of any source may find: by destination, communicator and tag, and without the tag
        std::unordered_map<Key, u32, KeyHash> source;
        for (const Call &c : p.calls)
            if (c.kind == SEND)
                for (u32 tag : {c.tag, NONE}) {
                    auto it = source.emplace(key_of(c.peer, 0, c.comm, tag), c.rank).first;
                    if (it->second != c.rank) it->second = NONE;
                }
        auto has_choice = [&](const Call &c) {
            if (!is_finder(c) || c.peer != NONE) return false;
            auto it = source.find(key_of(c.rank, 0, c.comm, c.tag));
            return it != source.end() && it->second == NONE;
        };
        for (u32 c = 0; c < n; c++)
            if (has_choice(p.calls[c]) && entry[p.calls[c].rank] == NONE) {
                entry[p.calls[c].rank] = width++;
                finders.push_back({});
            }
        if (!width) return;
        place_in.assign(n, NONE);
        for (u32 c = 0; c < n; c++)
            if (has_choice(p.calls[c])) finders[entry[p.calls[c].rank]].push_back(c);
        for (auto &list : finders) {
            std::sort(list.begin(), list.end(), [&](u32 a, u32 b) { return complete(a) < complete(b); });
            for (u32 i = 0; i < list.size(); i++) place_in[list[i]] = i;
        }
        make_blocks();
        known.assign((size_t)p.ranks * width, 0);
        issue_clock.resize(n);
        find_clock.resize(n);
        told.assign(n, 0);
    }
    bool at_once(u32 c) const {
        const Call &call = p.calls[c];
        bool buffered = call.mode == BUFFERED || (extras && call.mode == STANDARD && p.policy == ALWAYS);
        switch (call.kind) {
        case SEND: return !call.blocking || buffered;
        case MRECV: return true;
        case WAIT: {
            const Call &o = p.calls[call.other];
            if (o.kind == MRECV) return true;
            return o.kind == SEND && (o.mode == BUFFERED || (extras && o.mode == STANDARD && p.policy == ALWAYS));
        }
        default: return false;
        }
    }
    // a receive, or a matched probe whose message is received before a call that may wait
    bool may_join(u32 c) const {
        const Call &call = p.calls[c];
        if (call.kind == RECV) return true;
        if (call.kind != MPROBE) return false;
        for (u32 k = c + 1; k < call.other; k++)
            if (!at_once(k)) return false;
        return true;
    }
    bool many(u32 f) const { return block_of[f] != NONE && blocks[block_of[f]].size > 1; }
    void make_blocks() {
        block_of.assign(p.calls.size(), NONE);
        u32 open = NONE;
        for (u32 c = 0; c < p.calls.size(); c++) {
            const Call &call = p.calls[c];
            if (open != NONE && p.calls[blocks[open].first].rank != call.rank) open = NONE;
            if (place_in[c] != NONE) {
                bool joins = use_blocks && open != NONE && may_join(c) && p.calls[blocks[open].first].tag == call.tag && p.calls[blocks[open].first].comm == call.comm;
                if (joins) {
                    blocks[open].last = c;
                    blocks[open].size++;
                } else {
                    open = blocks.size();
                    blocks.push_back(Block{});
                    blocks[open].first = blocks[open].last = c;
                }
                block_of[c] = open;
                blocks[open].top = std::max(blocks[open].top, place_in[c]);
                if (!may_join(c)) open = NONE;
            } else if (is_finder(call)) open = NONE;
            else if (open != NONE && !at_once(c) && !(call.kind == WAIT && block_of[call.other] == open)) open = NONE;
        }
    }
    u32 complete(u32 f) const { return p.calls[f].blocking ? f : waited_at[f]; }
    void join(u32 *a, const u32 *b) {
        for (u32 i = 0; i < width; i++) a[i] = std::max(a[i], b[i]);
    }
    bool must_fetch(const Call &c) const { return c.mode == SYNCHRONOUS || (c.mode == STANDARD && p.policy == NEVER); }

    // what the return of this call, the last one issued of the rank, tells
    void learn(u32 c) {
        const Call &call = p.calls[c];
        u32 *mine = &known[(size_t)call.rank * width];
        u32 operation = call.kind == WAIT ? call.other : c;
        const Call &op = p.calls[operation];
        if (call.kind != WAIT && !call.blocking) return;
        if (op.kind == SEND) {
            if (must_fetch(op) && find_clock[operation]) join(mine, find_clock[operation].get());
            find_clock[operation].reset();
        } else if (is_finder(op)) {
            if (find_clock[operation]) join(mine, find_clock[operation].get());
            find_clock[operation].reset();
            if (place_in[operation] != NONE) {
                u32 &own = mine[entry[call.rank]];
                own = std::max(own, place_in[operation] + 1);
            }
        }
    }

    // ---- the machine

    bool fetched(u32 s) const {
        u32 t = partner[s];
        if (t == NONE) return false;
        const Call &taker = p.calls[t];
        return taker.kind == RECV || taker.other < next[taker.rank];
    }
    bool done(u32 c) const {
        const Call &call = p.calls[c];
        switch (call.kind) {
        case SEND:
            if (call.mode == BUFFERED) return true;
            if (call.mode == STANDARD && p.policy == ALWAYS) return true;
            return fetched(c);
        case RECV:
        case MPROBE:
        case PROBE: return partner[c] != NONE;
        default: return true;
        }
    }
    bool returned(u32 c) const {
        const Call &call = p.calls[c];
        if (call.kind == WAIT) return done(call.other);
        return !call.blocking || done(c);
    }
    void wake(u32 rank) {
        if (!is_ready[rank]) {
            is_ready[rank] = 1;
            ready.push_back(rank);
        }
    }

    void found(u32 s, u32 f) {    // the finder finds the send
        steps++;
        const Call &finder = p.calls[f];
        partner[f] = s;
        if (finder.kind != PROBE) partner[s] = f;
        if (width) {
            auto clock = std::make_unique<u32[]>(width);
            std::memcpy(clock.get(), issue_clock[s].get(), width * sizeof(u32));
            join(clock.get(), issue_clock[f].get());
            Block *block = block_of[f] == NONE ? nullptr : &blocks[block_of[f]];
            if (block) {
                if (block->from == NONE) block->from = p.calls[s].rank;
                block->mixed |= block->from != p.calls[s].rank;
            }
            if (many(f)) {
                // which of the block's sends it has isn't known, but when all have found, all of these are issued
                if (!block->sent) {
                    block->sent = std::make_unique<u32[]>(width);
                    std::memset(block->sent.get(), 0, width * sizeof(u32));
                }
                join(block->sent.get(), issue_clock[s].get());
                std::memcpy(clock.get(), issue_clock[f].get(), width * sizeof(u32));
                if (++block->found == block->size && extras) join(clock.get(), block->sent.get());
            }
            if (place_in[f] != NONE && finder.blocking) clock[entry[finder.rank]] = std::max(clock[entry[finder.rank]], place_in[f] + 1);
            if (finder.kind != PROBE && must_fetch(p.calls[s])) {
                find_clock[s] = std::make_unique<u32[]>(width);
                if (many(f) && !extras) std::memset(find_clock[s].get(), 0, width * sizeof(u32));
                else std::memcpy(find_clock[s].get(), many(f) ? block->issued.get() : clock.get(), width * sizeof(u32));
            }
            find_clock[f] = std::move(clock);
            issue_clock[f].reset();
            if (finder.kind != PROBE) issue_clock[s].reset();
        }
        wake(finder.rank);
        wake(p.calls[s].rank);
    }

    // a message that was matched leaves its other queues when their heads are looked at
    u32 head(Key k) {
        Queues::Slot *slot = messages.find(k);
        if (!slot) return NONE;
        while (slot->head != NONE && partner[messages.nodes[slot->head].call] != NONE) messages.pop(*slot);
        return slot->head == NONE ? NONE : messages.nodes[slot->head].call;
    }

    void post_message(u32 s) {
        const Call &c = p.calls[s];
        // the earliest posted taker that it fits
        u32 best = NONE;
        Queues::Slot *where = nullptr;
        for (int form = 0; form < 4; form++) {
            if ((form & 1) && !any_source) continue;
            if ((form & 2) && !any_tag) continue;
            Queues::Slot *slot = takers.find(key_of(c.peer, form & 1 ? NONE : c.rank, c.comm, form & 2 ? NONE : c.tag));
            if (slot && slot->head != NONE && takers.nodes[slot->head].call < best) {
                best = takers.nodes[slot->head].call;
                where = slot;
            }
        }
        if (where) {
            takers.pop(*where);
            found(s, best);
            return;
        }
        messages.push(key_of(c.peer, c.rank, c.comm, c.tag), s);
        if (any_source) messages.push(key_of(c.peer, NONE, c.comm, c.tag), s);
        if (any_tag) messages.push(key_of(c.peer, c.rank, c.comm, NONE), s);
        if (any_source && any_tag) messages.push(key_of(c.peer, NONE, c.comm, NONE), s);
        u32 probe = waiting_probe[c.peer];
        if (probe != NONE && fits(c, p.calls[probe])) {
            waiting_probe[c.peer] = NONE;
            found(s, probe);
        }
    }
    void post_finder(u32 f) {
        const Call &c = p.calls[f];
        Key k = key_of(c.rank, c.peer, c.comm, c.tag);
        u32 s = head(k);
        if (s != NONE) found(s, f);
        else if (c.kind == PROBE) waiting_probe[c.rank] = f;
        else takers.push(k, f);
    }

    void issue(u32 c) {
        steps++;
        const Call &call = p.calls[c];
        next[call.rank] = c + 1;
        if (width && (call.kind == SEND || is_finder(call))) {
            const u32 *mine = &known[(size_t)call.rank * width];
            issue_clock[c] = std::make_unique<u32[]>(width);
            std::memcpy(issue_clock[c].get(), mine, width * sizeof(u32));
            if (call.kind == SEND && entry[call.peer] != NONE) told[c] = mine[entry[call.peer]];
            if (block_of[c] != NONE && blocks[block_of[c]].first == c && blocks[block_of[c]].size > 1) {
                blocks[block_of[c]].issued = std::make_unique<u32[]>(width);
                std::memcpy(blocks[block_of[c]].issued.get(), mine, width * sizeof(u32));
            }
        }
        if (call.kind == SEND) post_message(c);
        else if (is_finder(call)) post_finder(c);
        else if (call.kind == MRECV) {
            u32 probe = probe_of(c);
            u32 s = partner[probe];
            if (width && find_clock[s] && !many(probe)) join(find_clock[s].get(), &known[(size_t)call.rank * width]);
            wake(p.calls[s].rank);
        }
    }
    u32 probe_of(u32 c) {
        if (!probed_by.empty()) return probed_by[c];
        // without clocks the table is made when it is first needed
        probed_by.assign(p.calls.size(), NONE);
        for (u32 i = 0; i < p.calls.size(); i++)
            if (p.calls[i].kind == MPROBE) probed_by[p.calls[i].other] = i;
        return probed_by[c];
    }

    bool run() {    // whether all ranks finish
        size_t n = p.calls.size();
        for (const Call &c : p.calls)
            if (is_finder(c)) {
                any_source |= c.peer == NONE;
                any_tag |= c.tag == NONE;
            }
        if (any_source) make_clocks();
        partner.assign(n, NONE);
        next.resize(p.ranks);
        is_ready.assign(p.ranks, 0);
        waiting_probe.assign(p.ranks, NONE);
        for (u32 r = 0; r < p.ranks; r++) next[r] = p.first[r];
        for (u32 r = p.ranks; r-- > 0;) wake(r);
        std::vector<u32> learnt;
        if (width) learnt.assign(p.ranks, NONE);
        while (!ready.empty()) {
            u32 r = ready.back();
            ready.pop_back();
            is_ready[r] = 0;
            while (true) {
                u32 c = next[r];
                if (c > p.first[r]) {
                    if (!returned(c - 1)) break;
                    if (width && learnt[r] != c - 1) {
                        learn(c - 1);
                        learnt[r] = c - 1;
                    }
                }
                if (c == p.first[r + 1]) break;
                issue(c);
            }
        }
        for (u32 r = 0; r < p.ranks; r++) {
            if (next[r] != p.first[r + 1]) return false;
            if (next[r] > p.first[r] && !returned(next[r] - 1)) return false;
        }
        return true;
    }

    // ---- whether a send races for a finder

    struct Class {
        u32 from;
        u32 tag;
        std::vector<u32> sends;
        u32 at = 0;
    };

    bool races(Decision &d) {
        // the sends to each rank with finders of any source, by source, communicator and tag
        std::vector<std::unordered_map<u64, u32>> index(width);
        std::vector<std::vector<Class>> classes(width);
        std::vector<std::unordered_map<u32, std::vector<u32>>> by_tag(width);     // communicator and tag
        std::vector<std::unordered_map<u32, std::vector<u32>>> by_comm(width);
        for (u32 s = 0; s < p.calls.size(); s++) {
            const Call &c = p.calls[s];
            if (c.kind != SEND || entry[c.peer] == NONE) continue;
            u32 e = entry[c.peer];
            u64 k = (u64)c.rank << 32 | (u32)c.comm << 24 | c.tag;
            auto it = index[e].find(k);
            if (it == index[e].end()) {
                u32 i = classes[e].size();
                it = index[e].emplace(k, i).first;
                classes[e].push_back({c.rank, c.tag, {}, 0});
                by_tag[e][(u32)c.comm << 24 | c.tag].push_back(i);
                by_comm[e][c.comm].push_back(i);
            }
            classes[e][it->second].sends.push_back(s);
        }
        for (Block &b : blocks) {
            const Call &c = p.calls[b.first];
            u32 e = entry[c.rank];
            auto &wanted = c.tag == NONE ? by_comm[e][c.comm] : by_tag[e][(u32)c.comm << 24 | c.tag];
            for (u32 i : wanted) {
                Class &k = classes[e][i];
                if (!b.mixed && k.from == b.from) continue;
                // those that these takers or earlier ones have: the takers of one class's sends rise
                while (k.at < k.sends.size() && partner[k.sends[k.at]] != NONE && partner[k.sends[k.at]] <= b.last) k.at++;
                if (k.at == k.sends.size()) continue;
                if (told[k.sends[k.at]] <= b.top) {
                    d.race_finder = b.last;
                    d.race_send = k.sends[k.at];
                    return true;
                }
            }
        }
        return false;
    }
};

inline Decision decide_as(const Program &p, bool use_blocks, bool extras = true) {
    Walk w(p);
    w.use_blocks = use_blocks;
    w.extras = extras;
    Decision d{UNKNOWN};
    bool finished = w.run();
    d.matches = w.steps;
    if (!finished) d.verdict = DEADLOCK;
    else if (!w.width || !w.races(d)) d.verdict = NO_DEADLOCK;
    return d;
}

// With blocks of receives that may stand for one another, and where that finds a race, without.
inline Decision decide(const Program &p) {
    Decision d = decide_as(p, true);
    return d.verdict == UNKNOWN ? decide_as(p, false) : d;
}
