// The same calls on a `std::set` under one mutex. Nothing of it is persistent.
#include "trace.hpp"

#include <mutex>
#include <set>

int main() {
    const Trace trace = read_trace();
    std::set<uint32_t> keys;
    std::mutex mutex;
    const auto counts = run_workers(trace, [&](uint32_t, const std::vector<Call>& script) {
        Counts counts;
        for (Call call : script) {
            const std::lock_guard<std::mutex> lock(mutex);
            if (call.name == Name::Insert) keys.insert(call.key);
            else if (call.name == Name::Remove) keys.erase(call.key);
            else if (keys.count(call.key) > 1) abort();
            counts.done++;
        }
        return counts;
    });
    print_summary(trace, counts, keys.size());
}
