// What the programs of this folder share: the traces that `flit make` writes, and the six lines of a summary.
#pragma once

#include <cstdint>
#include <cstdio>
#include <cstdlib>
#include <string>
#include <thread>
#include <vector>

enum class Name : uint8_t { Insert, Remove, Contains };

struct Call {
    Name name;
    uint32_t key;
};

struct Trace {
    uint32_t buckets = 0;
    uint32_t rows = 0;
    uint32_t workers = 0;
    std::vector<std::vector<Call>> scripts;  // of each worker, its calls in order
};

// How the calls of a worker came out.
struct Counts {
    uint64_t done = 0;
    uint64_t full = 0;
    uint64_t worn = 0;
};

[[noreturn]] inline void fail(const char* why) {
    fprintf(stderr, "%s\n", why);
    exit(1);
}

// Reads words and numbers of a text, one after the other.
struct Reader {
    const char* at;

    void skip() { while (*at == ' ' || *at == '\n') at++; }

    bool takes(const char* word) {
        skip();
        const char* p = at;
        for (; *word; word++, p++)
            if (*p != *word) return false;
        at = p;
        return true;
    }

    uint32_t number() {
        skip();
        if (*at < '0' || *at > '9') fail("not a trace of `flit make`");
        uint32_t n = 0;
        for (; *at >= '0' && *at <= '9'; at++) n = 10 * n + uint32_t(*at - '0');
        return n;
    }

    void wants(const char* word) { if (!takes(word)) fail("not a trace of `flit make`"); }
};

inline std::string standard_input() {
    std::string text;
    char buffer[1 << 16];
    while (size_t n = fread(buffer, 1, sizeof buffer, stdin)) text.append(buffer, n);
    return text;
}

inline Trace read_trace() {
    const std::string text = standard_input();
    Reader r{text.c_str()};
    Trace t;
    r.wants("flit 1");
    r.wants("structure hash");
    t.buckets = r.number();
    r.wants("place adjacent");
    r.wants("rows");
    t.rows = r.number();
    r.wants("workers");
    t.workers = r.number();
    t.scripts.resize(t.workers);
    while (!r.takes("end")) {
        const uint32_t worker = r.number();
        if (worker < 1 || worker > t.workers) fail("not a trace of `flit make`");
        const Name name = r.takes("insert") ? Name::Insert
                        : r.takes("remove") ? Name::Remove
                                            : (r.wants("contains"), Name::Contains);
        t.scripts[worker - 1].push_back({name, r.number()});
    }
    return t;
}

// Each worker's calls in a thread of its own: `work(worker, script)` answers their counts.
template <class Work>
std::vector<Counts> run_workers(const Trace& t, Work work) {
    std::vector<Counts> counts(t.workers);
    std::vector<std::thread> threads;
    for (uint32_t w = 0; w < t.workers; w++)
        threads.emplace_back([&, w] { counts[w] = work(w, t.scripts[w]); });
    for (auto& thread : threads) thread.join();
    return counts;
}

inline void print_summary(const Trace& t, const std::vector<Counts>& counts, uint64_t keys) {
    uint64_t calls = 0, done = 0, full = 0, worn = 0;
    for (auto& script : t.scripts) calls += script.size();
    for (auto& c : counts) done += c.done, full += c.full, worn += c.worn;
    printf("calls %llu\ndone %llu\nstopped 0\nfull %llu\nworn %llu\nkeys %llu\n", (unsigned long long)calls,
           (unsigned long long)done, (unsigned long long)full, (unsigned long long)worn, (unsigned long long)keys);
}
