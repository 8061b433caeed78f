// A mutator's caches, and its commands on objects and variables.
#pragma once
#include "words.hpp"

namespace bare {

// Claims block b if it is nobody's and has a free cell.
inline bool claim_block(const Heap &heap, Seat &seat, uint64_t b) {
    uint64_t nobody = 0;
    if (!heap.words[heap.owners + b].compare_exchange_strong(nobody, seat.section + 1)) return false;
    uint64_t free = ~heap.words[heap.allocs + b].load();
    if (free == 0) {
        heap.words[heap.owners + b].store(0);
        return false;
    }
    heap.words[kFree].fetch_sub(__builtin_popcountll(free));
    seat.block = b;
    seat.free = free;
    seat.hint = b + 1;
    return true;
}

// Claims a block, from the one behind that which was claimed last.
inline bool claim(const Heap &heap, Seat &seat) {
    uint64_t first = seat.hint % heap.blocks;
    for (uint64_t b = first; b < heap.blocks; b++) {
        if (claim_block(heap, seat, b)) return true;
    }
    for (uint64_t b = 0; b < first; b++) {
        if (claim_block(heap, seat, b)) return true;
    }
    return false;
}

// Publishes what was made, and gives the block up, if there is one.
inline void retire(const Heap &heap, Seat &seat) {
    if (seat.block == kNothing) return;
    if (seat.used != 0) heap.words[heap.allocs + seat.block].fetch_or(seat.used);
    heap.words[kFree].fetch_add(__builtin_popcountll(seat.free));
    heap.words[heap.owners + seat.block].store(0);
    seat.block = kNothing;
    seat.free = seat.used = 0;
}

inline void store_root(const Heap &heap, Seat &seat, uint64_t v, uint64_t word) {
    heap.words[heap.roots + 32 * seat.section + v].store(word);
    seat.variables[v] = word;
}

// Makes a cell in a free one of the seat's block, and stores it in variable v.
inline void create(const Heap &heap, Seat &seat, uint64_t v, uint64_t value) {
    uint64_t i = __builtin_ctzll(seat.free), c = 64 * seat.block + i;
    for (uint64_t f = 0; f < heap.sizes.fields; f++) heap.field(c, f).store(0);
    heap.words[heap.values + c].store(value);
    heap.words[heap.identities + c].store(seat.section * kFlag + seat.made);
    seat.free &= seat.free - 1;
    seat.used |= uint64_t{1} << i;
    seat.made++;
    store_root(heap, seat, v, c + 1);
}

inline bool is_own(const Heap &heap, const Seat &seat, uint64_t c) { return heap.words[heap.identities + c].load() / kFlag == seat.section; }

// Sees to the card of a stored field: one that is dirty already stays as it is.
inline void pay_card(const Heap &heap, uint64_t card) {
    if (heap.words[heap.dirty + card].load() != 1) heap.words[heap.dirty + card].store(1);
}

// Stores variable w in field f of variable v's object, and sees to the object's card if it is published. True if the object is another's.
inline bool set(const Heap &heap, Seat &seat, uint64_t v, uint64_t f, uint64_t w) {
    if (seat.variables[v] == 0) return false;
    uint64_t c = seat.variables[v] - 1;
    if (!is_own(heap, seat, c)) return true;
    heap.field(c, f).store(seat.variables[w]);
    if (seat.block != c / 64 || (seat.used >> c % 64 & 1) == 0) pay_card(heap, c / 16);
    return false;
}

inline bool put(const Heap &heap, Seat &seat, uint64_t v, uint64_t value) {
    if (seat.variables[v] == 0) return false;
    uint64_t c = seat.variables[v] - 1;
    if (!is_own(heap, seat, c)) return true;
    heap.words[heap.values + c].store(value);
    return false;
}

inline void follow(const Heap &heap, Seat &seat, uint64_t v, uint64_t w, uint64_t f) {
    uint64_t word = seat.variables[w];
    store_root(heap, seat, v, word == 0 ? 0 : heap.field(word - 1, f).load());
}

inline void lend(const Heap &heap, Seat &seat, uint64_t v, uint64_t c) { store_root(heap, seat, v, heap.words[heap.roots + c].load()); }

// The objects from variable v along field f, at most so many, and the sum of their values. If the walk ends before nil, the variable is stored again.
inline void walk(const Heap &heap, Seat &seat, uint64_t v, uint64_t f, uint64_t limit, uint64_t &count, uint64_t &total) {
    uint64_t word = seat.variables[v];
    count = total = 0;
    for (; word != 0 && count < limit; count++) {
        total += heap.words[heap.values + word - 1].load();
        word = heap.field(word - 1, f).load();
    }
    if (word != 0) store_root(heap, seat, v, seat.variables[v]);
}

}  // namespace bare
