// The end of a cycle in a stop: drain, sweep, settle; and the precise collection.
#pragma once
#include <bit>
#include <thread>

#include "cards.hpp"

namespace bare {

constexpr uint64_t kRound = 65536;

inline void open_help(const Heap &heap) { heap.words[heap.help].fetch_or(kFlag); }

inline void close_help(const Heap &heap) {
    heap.words[heap.help].fetch_sub(kFlag);
    while (heap.words[heap.help].load() != 0) std::this_thread::yield();
}

inline void begin_drain(const Heap &heap) {
    heap.words[kPhase].exchange(kDrain);
    heap.words[kNextCard].store(0);
}

inline uint64_t drain_round(const Heap &heap) {
    recycle_deferred(heap);
    trace(heap, kRound);
    return clean_dirty(heap);
}

inline uint64_t drain_together(const Heap &heap) {
    for (uint64_t section = 0; section < heap.sizes.sections; section++) scan_roots(heap, section);
    open_help(heap);
    uint64_t rescanned = drain_round(heap);
    close_help(heap);
    return rescanned;
}

// Marks what the roots of all sections name, once a packet is to be had.
inline void see_to_roots(const Heap &heap) {
    Packet out;
    while (!(out = take_some(heap))) recycle_deferred(heap);
    for (uint64_t section = 0; section < heap.sizes.sections; section++) mark_roots(heap, out, section);
    give(heap, out, false);
}

inline bool is_drained(const Heap &heap) { return first_dirty(heap) == heap.cards && heap.words[kEmpty].load() == 64 + heap.sizes.packets; }

inline uint64_t drain_alone(const Heap &heap) {
    heap.words[kNextBlock].store(0);
    see_to_roots(heap);
    uint64_t rescanned = 0;
    while (!is_drained(heap)) rescanned += drain_round(heap);
    return rescanned;
}

// The next block of a sweep, or the number of blocks if none is left.
inline uint64_t next_block(const Heap &heap) {
    if (heap.words[kNextBlock].load() >= heap.blocks) return heap.blocks;
    return std::min(heap.words[kNextBlock].fetch_add(1), heap.blocks);
}

inline uint64_t sweep_rest(const Heap &heap) {
    uint64_t freed = 0;
    for (uint64_t b; (b = next_block(heap)) < heap.blocks;) {
        uint64_t alloc = heap.words[heap.allocs + b].load(), kept = alloc & heap.words[heap.marks + b].load();
        heap.words[heap.allocs + b].store(kept);
        heap.words[heap.marks + b].store(0);
        freed += std::popcount(alloc & ~kept);
    }
    return freed;
}

inline void clear_all_marks(const Heap &heap) {
    heap.words[kPhase].exchange(kClear);
    for (uint64_t b; (b = next_block(heap)) < heap.blocks;) heap.words[heap.marks + b].store(0);
    begin_drain(heap);
}

inline void set_statistic(const Heap &heap, uint64_t word, uint64_t number) {
    heap.words[word].store(0);
    heap.words[word].fetch_add(number);
}

// Counts the cells in use, and sets the numbers of the next cycle.
inline void settle(const Heap &heap, uint64_t rescanned) {
    uint64_t used = 0;
    for (uint64_t b = 0; b < heap.blocks; b++) used += std::popcount(heap.words[heap.allocs + b].load());
    set_statistic(heap, kLast, used);
    set_statistic(heap, kRescanned, rescanned);
    set_statistic(heap, kFree, heap.sizes.cells - used);
    heap.words[kTraced].store(0);
    heap.words[kNextCard].store(0);
}

// From a drain that has begun to the end of the cycle.
inline void complete(const Heap &heap, uint64_t rescanned) {
    rescanned += drain_together(heap);
    rescanned += drain_alone(heap);
    heap.words[kPhase].exchange(kSweep);
    open_help(heap);
    sweep_rest(heap);
    close_help(heap);
    heap.words[kPhase].exchange(kIdle);
    settle(heap, rescanned);
}

inline void finish_cycle(const Heap &heap) {
    begin_drain(heap);
    complete(heap, 0);
}

// Leaves exactly the reachable cells in use.
inline void precise(const Heap &heap) {
    bool idle = heap.words[kPhase].load() == kIdle;
    begin_drain(heap);
    uint64_t rescanned = 0;
    if (!idle) {
        rescanned = drain_alone(heap);
        clear_all_marks(heap);
    }
    complete(heap, rescanned);
}

}  // namespace bare
