// The same calls on a hash table of sorted lists in a file of libpmemobj, with a lock for each bucket and a transaction for
// each update. Its one argument is the file, which it makes anew; where that isn't persistent memory, start it with
// PMEM_IS_PMEM_FORCE=1, so that it writes back by instructions of the processor and not by msync.
#include "trace.hpp"

#include <libpmemobj.h>
#include <mutex>

namespace {

struct Node {
    uint64_t next;  // the place of the next node in the file, or 0
    uint32_t key;
};

PMEMobjpool* pool;

Node* node_at(uint64_t place) { return reinterpret_cast<Node*>(reinterpret_cast<char*>(pool) + place); }

// The link at which a search for the key ends.
uint64_t* search(uint64_t* link, uint32_t key) {
    while (*link && node_at(*link)->key < key) link = &node_at(*link)->next;
    return link;
}

bool has(const uint64_t* link, uint32_t key) { return *link && node_at(*link)->key == key; }

void insert(uint64_t* link, uint32_t key) {
    TX_BEGIN(pool) {
        const PMEMoid made = pmemobj_tx_alloc(sizeof(Node), 1);
        *node_at(made.off) = Node{*link, key};
        pmemobj_tx_add_range_direct(link, sizeof *link);
        *link = made.off;
    } TX_ONABORT { fail("a transaction failed"); } TX_END
}

void remove(uint64_t* link) {
    TX_BEGIN(pool) {
        const PMEMoid gone = pmemobj_oid(node_at(*link));
        pmemobj_tx_add_range_direct(link, sizeof *link);
        *link = node_at(*link)->next;
        pmemobj_tx_free(gone);
    } TX_ONABORT { fail("a transaction failed"); } TX_END
}

}  // namespace

int main(int count, char** words) {
    if (count != 2) fail("usage: pmem_set FILE");
    const Trace trace = read_trace();
    ::remove(words[1]);
    pool = pmemobj_create(words[1], "flit_bench", size_t(1) << 30, 0600);
    if (!pool) fail(pmemobj_errormsg());
    const PMEMoid root = pmemobj_root(pool, trace.buckets * sizeof(uint64_t));
    auto heads = static_cast<uint64_t*>(pmemobj_direct(root));
    std::vector<std::mutex> locks(trace.buckets);
    const auto counts = run_workers(trace, [&](uint32_t, const std::vector<Call>& script) {
        Counts counts;
        for (Call call : script) {
            const uint32_t bucket = call.key * 2654435761u % trace.buckets;
            const std::lock_guard<std::mutex> lock(locks[bucket]);
            uint64_t* link = search(&heads[bucket], call.key);
            if (call.name == Name::Insert && !has(link, call.key)) insert(link, call.key);
            if (call.name == Name::Remove && has(link, call.key)) remove(link);
            counts.done++;
        }
        return counts;
    });
    uint64_t keys = 0;
    for (uint32_t bucket = 0; bucket < trace.buckets; bucket++)
        for (uint64_t at = heads[bucket]; at; at = node_at(at)->next) keys++;
    print_summary(trace, counts, keys);
    pmemobj_close(pool);
    ::remove(words[1]);
}
