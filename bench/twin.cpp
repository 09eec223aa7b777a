// The twin of `flit run --summary`: the same hash table of Harris's lists, with the same events on the same words, as a
// plain program. It is written for speed of reading, and nothing of it is proved.
//
// A word has its value in bits 0 to 31 and its version in bits 33 to 63. Word b is the head of bucket b; row r has a key
// word and, behind it, a link word. Each word has a counter beside it that tags it, and a shadow, which is what is persistent.
// A link's value is 4 times the row that it leads to, and 1 more where the row that it stands in is removed.
#include "trace.hpp"

#include <atomic>
#include <memory>

namespace {

using Atomic = std::atomic<uint64_t>;

constexpr uint64_t version_limit = 2147483647;

uint32_t value_of(uint64_t word) { return uint32_t(word); }
uint64_t version_of(uint64_t word) { return word >> 33; }
uint32_t row_of(uint64_t link) { return value_of(link) >> 2; }
bool is_marked(uint64_t link) { return link & 1; }
uint64_t next_version(uint64_t word, uint32_t value) { return (version_of(word) + 1) << 33 | value; }

enum class End { Won, Lost, Worn };
enum class Reply { Yes, No, Full, Worn };
enum class Found { Yes, No, Worn };

// A link word as it was loaded, and whether it was confirmed since.
struct Link {
    uint32_t word;
    uint64_t raw;
    bool confirmed;
};

// Where a search is: the link to the row that is looked at, that row's own link, and the link before.
struct Path {
    bool has_back;
    Link back, pred, next;
};

// What a worker carries from call to call: a row that isn't linked yet, how many rows had been drawn when it drew last, and
// the words that it has to write back before its next exchange.
struct Hand {
    uint32_t spare = 0;
    uint64_t ticket = 0;
    uint32_t queued = 0;
    uint32_t queue_words[16];
    uint64_t queue_kept[16];
};

struct Table {
    const uint32_t buckets, rows, count;
    std::unique_ptr<Atomic[]> words, shadows, counters;
    alignas(64) Atomic draws{0};  // on a line of its own, since every insert writes it

    explicit Table(const Trace& t)
        : buckets(t.buckets), rows(t.rows), count(t.buckets + 2 * t.rows),
          words(new Atomic[count]()), shadows(new Atomic[count]()), counters(new Atomic[count]()) {}

    uint32_t head(uint32_t key) const { return key * 2654435761u % buckets; }
    uint32_t key_word(uint32_t row) const { return buckets + 2 * (row - 1); }
    uint32_t link_word(uint32_t row) const { return key_word(row) + 1; }

    // The shadow becomes the greater of itself and this.
    void persist(uint32_t word, uint64_t kept) {
        uint64_t was = shadows[word].load();
        while (was < kept && !shadows[word].compare_exchange_weak(was, kept)) {}
    }

    void fence(Hand& hand) {
        for (uint32_t i = 0; i < hand.queued; i++) persist(hand.queue_words[i], hand.queue_kept[i]);
        hand.queued = 0;
    }

    void enqueue(Hand& hand, uint32_t word, uint64_t kept) {
        if (hand.queued == 16) fence(hand);
        hand.queue_words[hand.queued] = word;
        hand.queue_kept[hand.queued] = kept;
        hand.queued++;
    }

    // A word that shows a tag is to be written back.
    void confirm(Hand& hand, Link& link) {
        if (link.confirmed) return;
        if (counters[link.word].load() != 0) enqueue(hand, link.word, link.raw);
        link.confirmed = true;
    }

    // All that was read or written is made persistent, and then the word is exchanged under a tag.
    End exchange(Hand& hand, uint32_t word, uint64_t old, uint32_t value, uint64_t& made) {
        if (version_of(old) >= version_limit) return End::Worn;
        fence(hand);
        counters[word].fetch_add(1);
        made = next_version(old, value);
        const bool won = words[word].compare_exchange_strong(old, made);
        if (won) persist(word, made);
        counters[word].fetch_sub(1);
        return won ? End::Won : End::Lost;
    }

    // The key and the link of a row that nobody else reaches.
    bool store_row(Hand& hand, uint32_t row, uint32_t key, uint32_t link) {
        const uint32_t first = key_word(row);
        const uint64_t raws[2] = {words[first].load(), words[first + 1].load()};
        const uint32_t values[2] = {key, link};
        for (uint64_t raw : raws)
            if (version_of(raw) >= version_limit) return false;
        for (uint32_t i = 0; i < 2; i++) {
            const uint64_t made = next_version(raws[i], values[i]);
            if (hand.queued == 16) fence(hand);
            words[first + i].store(made);
            enqueue(hand, first + i, made);
        }
        return true;
    }

    bool take_row(Hand& hand) {
        if (hand.spare) return true;
        if (hand.ticket >= rows) return false;
        hand.ticket = draws.fetch_add(1);
        if (hand.ticket >= rows) return false;
        hand.spare = uint32_t(hand.ticket) + 1;
        return true;
    }

    void confirm_path(Hand& hand, Path& path, bool with_next) {
        if (path.has_back) confirm(hand, path.back);
        confirm(hand, path.pred);
        if (with_next) confirm(hand, path.next);
    }

    // Goes along the list of the key's bucket, and unlinks the removed rows on its way. The path is kept in variables of its
    // own until it is needed, since each row waits for the link before it: a link that goes through memory as a whole costs more
    // than the load.
    Found search(Hand& hand, uint32_t key, Path& path) {
        const uint32_t first = head(key);
        bool has_back = false;
        Link back{}, pred{first, words[first].load(), false}, next{};
        while (const uint32_t row = row_of(pred.raw)) {
            const uint64_t link = words[link_word(row)].load();
            next = {link_word(row), link, false};
            if (is_marked(link)) {
                path = {has_back, back, pred, next};
                confirm_path(hand, path, true);
                uint64_t made;
                const End end = exchange(hand, pred.word, pred.raw, 4 * row_of(link), made);
                if (end == End::Worn) return Found::Worn;
                if (end == End::Lost) return search(hand, key, path);
                back = path.back;
                pred = {pred.word, made, true};
                continue;
            }
            const uint32_t found = value_of(words[key_word(row)].load());
            if (found >= key) {
                path = {has_back, back, pred, next};
                confirm_path(hand, path, found == key);
                return found == key ? Found::Yes : Found::No;
            }
            has_back = true;
            back = pred;
            pred = next;
        }
        path = {has_back, back, pred, next};
        confirm_path(hand, path, false);
        return Found::No;
    }

    Reply insert(Hand& hand, uint32_t key) {
        for (;;) {
            Path path;
            const Found found = search(hand, key, path);
            if (found != Found::No) return found == Found::Yes ? Reply::No : Reply::Worn;
            if (!take_row(hand)) return Reply::Full;
            if (!store_row(hand, hand.spare, key, 4 * row_of(path.pred.raw))) return Reply::Worn;
            uint64_t made;
            const End end = exchange(hand, path.pred.word, path.pred.raw, 4 * hand.spare, made);
            if (end == End::Worn) return Reply::Worn;
            if (end == End::Won) {
                hand.spare = 0;
                return Reply::Yes;
            }
        }
    }

    Reply remove(Hand& hand, uint32_t key) {
        for (;;) {
            Path path;
            const Found found = search(hand, key, path);
            if (found != Found::Yes) return found == Found::No ? Reply::No : Reply::Worn;
            const uint32_t behind = 4 * row_of(path.next.raw);
            uint64_t made;
            const End end = exchange(hand, path.next.word, path.next.raw, behind + 1, made);
            if (end == End::Worn) return Reply::Worn;
            if (end == End::Won) {
                exchange(hand, path.pred.word, path.pred.raw, behind, made);
                return Reply::Yes;
            }
        }
    }

    Reply contains(Hand& hand, uint32_t key) {
        Path path;
        const Found found = search(hand, key, path);
        return found == Found::Yes ? Reply::Yes : found == Found::No ? Reply::No : Reply::Worn;
    }

    Reply answer(Hand& hand, Call call) {
        const Reply reply = call.name == Name::Insert   ? insert(hand, call.key)
                            : call.name == Name::Remove ? remove(hand, call.key)
                                                        : contains(hand, call.key);
        fence(hand);
        return reply;
    }

    // How many keys the shadows have.
    uint64_t keys() const {
        uint64_t keys = 0;
        for (uint32_t bucket = 0; bucket < buckets; bucket++) {
            uint32_t row = row_of(shadows[bucket].load());
            while (row) {
                const uint64_t link = shadows[link_word(row)].load();
                keys += !is_marked(link);
                row = row_of(link);
            }
        }
        return keys;
    }
};

}  // namespace

int main() {
    const Trace trace = read_trace();
    Table table(trace);
    const auto counts = run_workers(trace, [&](uint32_t, const std::vector<Call>& script) {
        Hand hand;
        Counts counts;
        for (Call call : script) {
            const Reply reply = table.answer(hand, call);
            if (reply == Reply::Full) counts.full++;
            else if (reply == Reply::Worn) counts.worn++;
            else counts.done++;
        }
        return counts;
    });
    print_summary(trace, counts, table.keys());
}
