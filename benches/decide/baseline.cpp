// Texts of programs of many calls, and how long the decision of baseline.hpp takes for one.
//   baseline write FAMILY RANKS ITERATIONS FILE    writes the text of a program
//   baseline decide FILE                           reads a text that is well formed, and decides its program
#include "baseline.hpp"

#include <cmath>
#include <cstdlib>
#include <ctime>
#include <fstream>

// processor time of this process, since the machine may be shared
static double now() { return (double)std::clock() / CLOCKS_PER_SEC; }
// ---- programs

struct Maker {
    std::vector<std::vector<Call>> lines;
    explicit Maker(u32 ranks) : lines(ranks) {}
    u32 add(u32 r, Call c) {
        c.rank = r;
        lines[r].push_back(c);
        return lines[r].size() - 1;
    }
    void send(u32 r, u32 to, u32 tag, Mode mode = STANDARD) { add(r, Call{SEND, mode, true, 0, to, tag}); }
    void recv(u32 r, u32 from, u32 tag) { add(r, Call{RECV, STANDARD, true, 0, from, tag}); }
    u32 isend(u32 r, u32 to, u32 tag) { return add(r, Call{SEND, STANDARD, false, 0, to, tag}); }
    u32 irecv(u32 r, u32 from, u32 tag) { return add(r, Call{RECV, STANDARD, false, 0, from, tag}); }
    void wait(u32 r, u32 o) { add(r, Call{WAIT, STANDARD, true, 0, 0, 0, o}); }
    Program make(Policy policy) {
        Program p;
        p.policy = policy;
        p.ranks = lines.size();
        size_t n = 0;
        for (auto &l : lines) n += l.size();
        p.calls.reserve(n);
        for (auto &l : lines) {
            u32 base = p.calls.size();
            for (Call c : l) {
                if (c.other != NONE) c.other += base;
                p.calls.push_back(c);
            }
            std::vector<Call>().swap(l);
        }
        p.close();
        return p;
    }
};

// neighbours on a torus
static void halo(Maker &m, u32 side, u32 tag, bool blocking) {
    u32 dx[4] = {1, side - 1, 0, 0}, dy[4] = {0, 0, 1, side - 1};
    for (u32 y = 0; y < side; y++)
        for (u32 x = 0; x < side; x++) {
            u32 r = y * side + x, q[8];
            auto near = [&](u32 d) { return (y + dy[d]) % side * side + (x + dx[d]) % side; };
            if (blocking) {
                for (u32 d = 0; d < 4; d++) m.send(r, near(d), tag + d);
                for (u32 d = 0; d < 4; d++) m.recv(r, near(d), tag + (d ^ 1));
                continue;
            }
            for (u32 d = 0; d < 4; d++) q[d] = m.irecv(r, near(d), tag + (d ^ 1));
            for (u32 d = 0; d < 4; d++) q[4 + d] = m.isend(r, near(d), tag + d);
            for (u32 d = 0; d < 8; d++) m.wait(r, q[d]);
        }
}
// a sum over all ranks: up a binomial tree, and down
static void reduce(Maker &m, u32 ranks, u32 tag, bool any_source) {
    for (u32 r = 0; r < ranks; r++) {
        u32 low = r ? r & -r : ranks;
        for (u32 b = 1; b < low && r + b < ranks; b *= 2) m.recv(r, any_source ? NONE : r + b, tag);
        if (r) {
            m.send(r, r - low, tag);
            m.recv(r, r - low, tag + 1);
        }
        u32 top = 1;
        while (top < low && r + top < ranks) top *= 2;
        for (u32 b = top / 2; b >= 1; b /= 2)
            if (b < low && r + b < ranks) m.send(r, r + b, tag + 1);
    }
}

// Rank 0 has a receive of any source open for each other rank and tag; the others send in turn, the highest tag first, and a
// token goes between them. So which receives have found no count of rank 0's tells.
static void exact(Maker &m, u32 ranks, u32 iterations) {
    std::vector<u32> open;
    for (u32 r = 1; r < ranks; r++)
        for (u32 i = 0; i < iterations; i++) open.push_back(m.irecv(0, NONE, i));
    for (u32 q : open) m.wait(0, q);
    for (u32 i = iterations; i-- > 0;)
        for (u32 r = 1; r < ranks; r++) {
            if (r > 1 || i + 1 < iterations) m.recv(r, r > 1 ? r - 1 : ranks - 1, iterations);
            m.send(r, 0, i, SYNCHRONOUS);
            if (r + 1 < ranks || i) m.send(r, r + 1 < ranks ? r + 1 : 1, iterations, BUFFERED);
        }
}

// Messages that are told apart by their tags, or by who can send them, and are taken from any source. False: there is no such program.
static bool any_source(Maker &m, const std::string &name, u32 ranks, u32 iterations) {
    std::vector<u32> open;
    for (u32 i = 0; i < iterations; i++) {
        u32 worker = 1 + i % (ranks - 1);
        if (name == "tags") {    // each message has a tag of its own
            m.send(worker, 0, i);
            m.recv(0, NONE, i);
        } else if (name == "open-any") {    // so, and all receives are open at once
            m.send(worker, 0, i);
            open.push_back(m.irecv(0, NONE, i));
        } else if (name == "any-tags") {    // so, of one sender, and the receives take any tag
            m.send(1, 0, i);
            m.recv(0, NONE, NONE);
        } else if (name == "unreceived") {    // beside wildcards, messages of tags of their own that nobody takes
            m.send(1, 0, i % 7, BUFFERED);
            m.recv(0, NONE, i % 7);
            m.send(2 + i % (ranks - 2), 0, 10 + i, BUFFERED);
        } else if (name == "ring-any") {    // each rank has wildcards that one other can send to
            for (u32 r = 0; r < ranks; r++) {
                m.send(r, (r + 1) % ranks, 1, BUFFERED);
                m.recv(r, NONE, 1);
            }
        } else if (name == "chain-any") {    // so, from the last rank to the first
            for (u32 r = 0; r < ranks; r++) {
                if (r + 1 < ranks) m.recv(r, NONE, 1);
                if (r) m.send(r, r - 1, 1);
            }
        } else if (name == "alltoall-any") {    // each rank sends to all others, with its number as the tag
            for (u32 r = 0; r < ranks; r++) {
                for (u32 o = 1; o < ranks; o++) m.send(r, (r + o) % ranks, r, BUFFERED);
                for (u32 o = 1; o < ranks; o++) m.recv(r, NONE, (r + ranks - o) % ranks);
            }
        } else
            return false;
    }
    for (u32 q : open) m.wait(0, q);
    return true;
}

static Program program(const std::string &name, u32 ranks, u32 iterations) {
    Maker m(ranks);
    if (any_source(m, name, ranks, iterations)) return m.make(ANY);
    if (name == "exact") {
        exact(m, ranks, iterations);
        return m.make(ANY);
    }
    u32 side = std::lround(std::sqrt((double)ranks));
    Policy policy = ANY;
    for (u32 i = 0; i < iterations; i++) {
        if (name == "halo") halo(m, side, 0, false);
        else if (name == "halo-blocking") halo(m, side, 0, true);
        else if (name == "halo-blocking-all") {
            halo(m, side, 0, true);
            policy = ALWAYS;
        } else if (name == "cg") {
            halo(m, side, 0, false);
            reduce(m, ranks, 10, false);
            reduce(m, ranks, 20, false);
        } else if (name == "cg-any-source") {    // children of a tree race
            halo(m, side, 0, false);
            reduce(m, ranks, 10, true);
        } else if (name == "pipeline")
            for (u32 r = 0; r < ranks; r++) {
                if (r) m.recv(r, r - 1, 0);
                if (r + 1 < ranks) m.send(r, r + 1, 0);
            }
        else if (name == "pipeline-any")    // any source and any tag, of one sender each
            for (u32 r = 0; r < ranks; r++) {
                if (r) m.recv(r, NONE, NONE);
                if (r + 1 < ranks) m.send(r, r + 1, i % 7);
            }
        else if (name == "turns") {    // one worker after another reports to rank 0, which asks for any; a barrier parts the turns
            u32 w = 1 + i % (ranks - 1);
            m.send(w, 0, 1);
            m.recv(0, NONE, 1);
            reduce(m, ranks, 10, false);
        } else if (name == "gather") {    // rank 0 takes a message of each other rank as they come, and answers each
            for (u32 r = 1; r < ranks; r++) {
                m.send(r, 0, 1);
                m.recv(0, NONE, 1);
            }
            for (u32 r = 1; r < ranks; r++) {
                m.send(0, r, 2);
                m.recv(r, 0, 2);
            }
        } else if (name == "sweeps") {    // each rank asks for any source, from the left and then from the right, with barriers
            for (int way = 0; way < 2; way++) {
                for (u32 r = 0; r < ranks; r++) {
                    u32 to = way ? (r + ranks - 1) % ranks : (r + 1) % ranks;
                    u32 q = m.irecv(r, NONE, 1);
                    m.send(r, to, 1);
                    m.wait(r, q);
                }
                reduce(m, ranks, 10, false);
            }
        } else {
            std::fprintf(stderr, "no such program\n");
            std::exit(1);
        }
    }
    return m.make(policy);
}

// ---- texts

static void write_text(const Program &p, const char *path) {
    std::FILE *f = std::fopen(path, "w");
    std::fprintf(f, "ranks %u\npolicy %s\n", p.ranks, p.policy == ANY ? "any" : p.policy == NEVER ? "none" : "all");
    auto star = [](u32 n) { return n == NONE ? std::string("*") : std::to_string(n); };
    for (u32 r = 0; r < p.ranks; r++) {
        std::fprintf(f, "rank %u\n", r);
        for (u32 c = p.first[r]; c < p.first[r + 1]; c++) {
            const Call &k = p.calls[c];
            const char *mode = k.mode == STANDARD ? "send" : k.mode == SYNCHRONOUS ? "ssend" : "bsend";
            if (k.kind == SEND && k.blocking) std::fprintf(f, "%s %u %u\n", mode, k.peer, k.tag);
            else if (k.kind == SEND) std::fprintf(f, "i%s q%u %u %u\n", mode, c - p.first[r], k.peer, k.tag);
            else if (k.kind == RECV && k.blocking) std::fprintf(f, "recv %s %s\n", star(k.peer).c_str(), star(k.tag).c_str());
            else if (k.kind == RECV) std::fprintf(f, "irecv q%u %s %s\n", c - p.first[r], star(k.peer).c_str(), star(k.tag).c_str());
            else if (k.kind == WAIT) std::fprintf(f, "wait q%u\n", k.other - p.first[r]);
        }
    }
    std::fclose(f);
}

// Reads the lines of a text that is well formed; it stands in for the proved reader, whose faults it doesn't tell.
static Program read_text(const char *path) {
    std::ifstream in(path, std::ios::binary);
    std::string all((std::istreambuf_iterator<char>(in)), {});
    Program p;
    std::unordered_map<std::string, u32> requests, handles;
    const char *at = all.data(), *end = at + all.size();
    u32 rank = 0;
    std::vector<std::pair<const char *, size_t>> words;
    while (at < end) {
        const char *line = (const char *)std::memchr(at, '\n', end - at);
        if (!line) line = end;
        words.clear();
        while (at < line) {
            const char *w = at;
            while (at < line && *at != ' ') at++;
            words.push_back({w, (size_t)(at - w)});
            if (at < line) at++;
        }
        at = line + 1;
        auto is = [&](const char *s) { return words[0].second == std::strlen(s) && !std::memcmp(words[0].first, s, words[0].second); };
        auto number = [&](size_t i) -> u32 {
            if (words[i].first[0] == '*') return NONE;
            u32 n = 0;
            for (size_t k = 0; k < words[i].second; k++) n = n * 10 + (words[i].first[k] - '0');
            return n;
        };
        auto name = [&](size_t i) { return std::string(words[i].first, words[i].second); };
        auto put = [&](Call c, size_t peer, size_t tag) {
            c.rank = rank;
            if (peer) c.peer = number(peer), c.tag = number(tag);
            if (peer && words.size() > tag + 2) c.comm = number(tag + 2);
            p.calls.push_back(c);
            return (u32)p.calls.size() - 1;
        };
        auto sends = [&](const char *word, const char *nonblocking, Mode mode) {
            if (is(word)) return put(Call{SEND, mode, true}, 1, 2), true;
            if (is(nonblocking)) return requests[name(1)] = put(Call{SEND, mode, false}, 2, 3), true;
            return false;
        };
        if (is("ranks")) p.ranks = number(1);
        else if (is("policy")) p.policy = words[1].first[1] == 'n' ? ANY : words[1].first[0] == 'n' ? NEVER : ALWAYS;
        else if (is("rank")) rank = number(1), requests.clear(), handles.clear();
        else if (is("wait")) { u32 o = requests[name(1)]; u32 c = put(Call{WAIT}, 0, 0); p.calls[c].other = o; }
        else if (is("waitall")) for (size_t i = 1; i < words.size(); i++) { u32 o = requests[name(i)]; u32 c = put(Call{WAIT}, 0, 0); p.calls[c].other = o; }
        else if (is("recv")) put(Call{RECV}, 1, 2);
        else if (is("irecv")) requests[name(1)] = put(Call{RECV, STANDARD, false}, 2, 3);
        else if (is("probe")) put(Call{PROBE}, 1, 2);
        else if (is("mprobe")) handles[name(1)] = put(Call{MPROBE}, 2, 3);
        else if (is("mrecv")) { u32 h = handles[name(1)]; u32 c = put(Call{MRECV}, 0, 0); p.calls[h].other = c; }
        else if (is("imrecv")) { u32 h = handles[name(2)]; u32 c = put(Call{MRECV, STANDARD, false}, 0, 0); requests[name(1)] = c; p.calls[h].other = c; }
        else if (is("sendrecv")) {
            u32 s = put(Call{SEND, STANDARD, false}, 1, 2);
            Call c{RECV, STANDARD, false};
            c.rank = rank, c.peer = number(3), c.tag = number(4), c.comm = words.size() > 6 ? number(6) : 0;
            p.calls[s].comm = c.comm;
            p.calls.push_back(c);
            for (u32 o : {s, s + 1}) { u32 w = put(Call{WAIT}, 0, 0); p.calls[w].other = o; }
        } else if (!sends("send", "isend", STANDARD) && !sends("ssend", "issend", SYNCHRONOUS) && !sends("bsend", "ibsend", BUFFERED)) {
            std::fprintf(stderr, "unknown line\n");
            std::exit(1);
        }
    }
    p.close();
    return p;
}

int main(int argc, char **argv) {
    if (argc == 6 && !std::strcmp(argv[1], "write")) {
        write_text(program(argv[2], std::atoi(argv[3]), std::atoi(argv[4])), argv[5]);
        return 0;
    }
    if (argc != 3 || std::strcmp(argv[1], "decide")) {
        std::fprintf(stderr, "usage: baseline write FAMILY RANKS ITERATIONS FILE | baseline decide FILE\n");
        return 2;
    }
    Program p = read_text(argv[2]);
    double before = now();
    Decision d = decide(p);
    double after = now();
    const char *answer = d.verdict == NO_DEADLOCK ? "no deadlock" : d.verdict == DEADLOCK ? "deadlock" : "unknown race";
    std::printf("%u %zu %.3f %s\n", p.ranks, p.calls.size(), after - before, answer);
}
