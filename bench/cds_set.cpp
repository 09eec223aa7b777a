// The same calls on the hash set of libcds: Michael's lists, with hazard pointers. Nothing of it is persistent.
#include "trace.hpp"

#include <cds/init.h>
#include <cds/gc/hp.h>
#include <cds/container/michael_list_hp.h>
#include <cds/container/michael_set.h>

struct Hash {
    size_t operator()(uint32_t key) const { return key * 2654435761u; }
};

struct ListTraits : cds::container::michael_list::traits {
    typedef std::less<uint32_t> less;
};

struct SetTraits : cds::container::michael_set::traits {
    typedef Hash hash;
};

using List = cds::container::MichaelList<cds::gc::HP, uint32_t, ListTraits>;
using Set = cds::container::MichaelHashSet<cds::gc::HP, List, SetTraits>;

int main() {
    const Trace trace = read_trace();
    cds::Initialize();
    {
        cds::gc::HP hazard_pointers;
        cds::threading::Manager::attachThread();
        {
            Set keys(trace.buckets, 1);
            const auto counts = run_workers(trace, [&](uint32_t, const std::vector<Call>& script) {
                cds::threading::Manager::attachThread();
                Counts counts;
                for (Call call : script) {
                    if (call.name == Name::Insert) keys.insert(call.key);
                    else if (call.name == Name::Remove) keys.erase(call.key);
                    else keys.contains(call.key);
                    counts.done++;
                }
                cds::threading::Manager::detachThread();
                return counts;
            });
            print_summary(trace, counts, keys.size());
        }
        cds::threading::Manager::detachThread();
    }
    cds::Terminate();
}
