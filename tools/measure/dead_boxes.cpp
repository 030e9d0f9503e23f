// Asks a store of dead boxes for one that contains a state, over and over: the same words in the same order as the
// proved store, left at the same places, from std::atomic<uint64_t>.
//
// dead_boxes ROWS VALUE CALLS: the rows that are ready, whose boxes have the number 2 alone, the state's number, the calls.
#include <atomic>
#include <cstdint>
#include <cstdio>
#include <cstdlib>
#include <vector>

using i128 = __int128;
using u128 = unsigned __int128;

static const size_t ROWS = 1024, READY = 1, FIRST = 1025;

// n / 10^p
struct Dec {
    i128 n;
    uint8_t p;
};

static i128 tenTo(unsigned power) {
    i128 result = 1;
    while (power--) result *= 10;
    return result;
}

static __attribute__((noinline, cold)) int compareAligned(Dec a, Dec b) {
    unsigned p = a.p > b.p ? a.p : b.p;
    i128 x = a.n * tenTo(p - a.p), y = b.n * tenTo(p - b.p);
    return x < y ? -1 : x > y;
}

static inline int compare(Dec a, Dec b) {
    if (a.p == b.p) return a.n < b.n ? -1 : a.n > b.n;
    return compareAligned(a, b);
}

// A row: a word for each fact (0 true alone, 1 false alone, 2 both), then eight words for each fluent: of each end the
// kind (0 infinite, 1 excluded, 2 included), the places, and the number, moved up by 2^127, in two words.
struct Store {
    std::vector<std::atomic<uint64_t>> words;
    size_t facts, fluents, width;
    const uint8_t *places;

    Store(size_t facts, size_t fluents, const uint8_t *places)
        : words(FIRST + ROWS * (facts + 8 * fluents)), facts(facts), fluents(fluents),
          width(facts + 8 * fluents), places(places) {
        for (auto &word : words) word.store(0, std::memory_order_relaxed);
    }
};

static inline uint64_t load(const Store &s, size_t at) {
    return s.words[at].load(std::memory_order_seq_cst);
}

static inline Dec decimal(const Store &s, size_t at) {
    uint64_t places = load(s, at + 1), high = load(s, at + 2), low = load(s, at + 3);
    u128 moved = (u128)high << 64 | low;
    return {(i128)(moved - ((u128)1 << 127)), (uint8_t)places};
}

static inline bool lowerHas(const Store &s, size_t at, Dec value) {
    uint64_t kind = load(s, at);
    if (kind == 0) return true;
    int order = compare(decimal(s, at), value);
    return kind == 1 ? order < 0 : order <= 0;
}

static inline bool upperHas(const Store &s, size_t at, Dec value) {
    uint64_t kind = load(s, at);
    if (kind == 0) return true;
    int order = compare(value, decimal(s, at));
    return kind == 1 ? order < 0 : order <= 0;
}

static bool contains(const Store &s, size_t row, const std::vector<bool> &truths,
                     const std::vector<i128> &values) {
    size_t start = FIRST + row * s.width;
    for (size_t fact = 0; fact < s.facts; fact++) {
        uint64_t word = load(s, start + fact);
        if (word == 0 ? !truths[fact] : word == 1 && truths[fact]) return false;
    }
    for (size_t fluent = 0; fluent < s.fluents; fluent++) {
        size_t at = start + s.facts + 8 * fluent;
        Dec value{values[fluent], s.places[fluent]};
        if (!lowerHas(s, at, value)) return false;
        if (!upperHas(s, at + 4, value)) return false;
    }
    return true;
}

static __attribute__((noinline)) int find(const Store &s, const std::vector<bool> &truths,
                                          const std::vector<i128> &values) {
    for (size_t row = 0; row < ROWS; row++)
        if (load(s, READY + row) == 1 && contains(s, row, truths, values)) return (int)row;
    return -1;
}

int main(int count, char **words) {
    if (count != 4) {
        fprintf(stderr, "dead_boxes ROWS VALUE CALLS\n");
        return 1;
    }
    int ready = atoi(words[1]), calls = atoi(words[3]);
    uint8_t places[] = {0};
    Store store(0, 1, places);
    u128 two = ((u128)1 << 127) + 2;
    uint64_t high = (uint64_t)(two >> 64), low = (uint64_t)two;
    const uint64_t box[8] = {2, 0, high, low, 2, 0, high, low};
    for (int row = 0; row < ready; row++) {
        for (int i = 0; i < 8; i++) store.words[FIRST + 8 * row + i] = box[i];
        store.words[READY + row] = 1;
    }
    std::vector<bool> truths;
    std::vector<i128> values{atoi(words[2])};
    long found = 0;
    for (int i = 0; i < calls; i++) found += find(store, truths, values) >= 0;
    printf("%ld\n", found);
    return 0;
}
