// Dirty cards are cleaned, in a pass that seats share or alone.
#pragma once
#include "tracing.hpp"

namespace bare {

// The next card of the pass, or the number of cards if none is left.
inline uint64_t next_card(const Heap &heap) {
    if (heap.words[kNextCard].load() >= heap.cards) return heap.cards;
    return std::min(heap.words[kNextCard].fetch_add(1), heap.cards);
}

// Scans the marked cells of a dirty card again, those that are published, and answers how many.
inline uint64_t clean_card(const Heap &heap, Packet &out, uint64_t card) {
    if (heap.words[heap.dirty + card].exchange(0) != 1) return 0;
    uint64_t of_card = uint64_t{0xffff} << 16 * (card % 4);
    uint64_t marked = heap.words[heap.marks + card / 4].load() & of_card;
    uint64_t left = marked & heap.words[heap.allocs + card / 4].load(), rescanned = 0;
    bool again = left != marked;
    for (; left != 0; left &= left - 1, rescanned++) again |= scan_cell(heap, out, card / 4 * 64 + __builtin_ctzll(left));
    if (again) heap.words[heap.dirty + card].store(1);
    return rescanned;
}

// Cleans the dirty ones of the next cards, `looks` at most, with one packet, until so many cells are in it as are enough. False if none was cleaned.
inline bool clean_next(const Heap &heap, uint64_t &looks, uint64_t enough, uint64_t &rescanned) {
    Packet out;
    for (; looks > 0 && !(out && out.length >= enough); looks--) {
        uint64_t card = next_card(heap);
        if (card == heap.cards) break;
        if (heap.words[heap.dirty + card].load() != 1) continue;
        if (!out) out = take_output(heap);
        if (!out) return false;
        rescanned += clean_card(heap, out, card);
    }
    if (!out) return false;
    give(heap, out, false);
    return true;
}

inline uint64_t first_dirty(const Heap &heap) {
    for (uint64_t card = 0; card < heap.cards; card++) {
        if (heap.words[heap.dirty + card].load() == 1) return card;
    }
    return heap.cards;
}

inline uint64_t clean_dirty(const Heap &heap) {
    uint64_t first = first_dirty(heap), rescanned = 0;
    if (first == heap.cards) return 0;
    Packet out = take_some(heap);
    if (!out) return 0;
    for (uint64_t card = first; card < heap.cards; card++) {
        if (heap.words[heap.dirty + card].load() == 1) rescanned += clean_card(heap, out, card);
    }
    give(heap, out, false);
    return rescanned;
}

// Traces a quota, and cleans cards of the pass if there is nothing to trace.
inline Traced trace_and_clean(const Heap &heap, uint64_t quota, uint64_t &rescanned) {
    Traced traced = trace(heap, quota);
    uint64_t looks = 1024;
    for (int round = 0; round < 8 && traced.stopped == Stopped::NoWork; round++) {
        uint64_t owed = quota - traced.done;
        if (!clean_next(heap, looks, std::min(owed, heap.sizes.entries / 2), rescanned)) return traced;
        Traced more = trace(heap, owed);
        traced = {traced.done + more.done, more.stopped};
    }
    return traced;
}

}  // namespace bare
