// The words of the heap, as mark_core lays them out, and what a seat of the floor knows beside them.
#pragma once
#include <atomic>
#include <cstdint>
#include <vector>

#ifdef COUNTED
#include "counted.hpp"
#endif

namespace bare {

// The sizes of a heap, as they are known only when it is made.
struct Sizes {
    uint64_t cells, packets, entries, sections, fields;
};

constexpr uint64_t kWorld = 0, kPhase = 1, kEmpty = 2, kNextCard = 3, kNextBlock = 4;
constexpr uint64_t kLast = 6, kRescanned = 7, kTraced = 8, kFree = 9, kDone = 10, kPositions = 11;
constexpr uint64_t kIdle = 0, kMarking = 1, kDrain = 2, kSweep = 3, kClear = 4;
constexpr uint64_t kFlag = uint64_t{1} << 32;
constexpr uint64_t kNothing = ~uint64_t{0};

#ifdef COUNTED
using Word = CountedWord;
#else
using Word = std::atomic<uint64_t>;
#endif

struct Heap {
    Word *words;
    Sizes sizes;
    uint64_t blocks, cards, pool_words, roots, owners, allocs, marks, dirty, heads, entries, identities, values, references, pools, help, season, count;

    explicit Heap(Sizes of) : sizes(of) {
        blocks = of.cells / 64;
        cards = of.cells / 16;
        pool_words = (of.packets + 63) / 64;
        roots = kPositions + of.sections;
        owners = roots + 32 * of.sections;
        allocs = owners + blocks;
        marks = allocs + blocks;
        dirty = marks + blocks;
        heads = dirty + cards;
        entries = heads + of.packets;
        identities = entries + of.packets * of.entries;
        values = identities + of.cells;
        references = values + of.cells;
        pools = references + of.cells * of.fields;
        help = pools + 4 * pool_words;
        season = help + 1;
        count = season + 1;
        words = new Word[count]();
        words[kEmpty] = 64 + of.packets;
        for (uint64_t p = 0; p < of.packets; p++) words[pools + p / 64] |= uint64_t{1} << p % 64;
    }

    Word &field(uint64_t c, uint64_t f) const { return words[references + sizes.fields * c + f]; }
    Word &entry(uint64_t p, uint64_t k) const { return words[entries + sizes.entries * p + k]; }
    Word &pool(uint64_t q, uint64_t g) const { return words[pools + q * pool_words + g]; }

    // Copies the words out, as the table's heap gives them.
    bool close() {
        std::vector<uint64_t> copy;
        copy.reserve(count);
        for (uint64_t i = 0; i < count; i++) copy.push_back(words[i].load(std::memory_order_relaxed));
        delete[] words;
        return copy.size() == count;
    }
};

// What a seat knows besides the words: its variables, its cache with the cells that are free and those that were made and aren't published, and what
// it read last of the phase and the season.
struct Seat {
    uint64_t section = 0, made = 0;
    uint64_t block = kNothing, free = 0, used = 0, hint = 0;
    uint64_t phase = kIdle, season = kNothing;
    uint32_t variables[32] = {};
};

}  // namespace bare
