// What a mutator and a tracer do to the words of a heap, as single operations that are timed: the same as in the crates, in the same order, and no more.
// The words are the floor's, with at most 64 packets, so that each pool is one word.
#pragma once
#include <cstdint>
#include <utility>

#include "floor/words.hpp"

namespace {

using namespace bare;

// What a mutator knows besides the words: its variables, and the cells that it made and hasn't published.
struct Mutator {
    uint32_t variables[32] = {};
    uint64_t made = 0, used = 0, used_block = ~uint64_t{0};
};

// Claims the first block with free cells from block b on, and answers its free cells.
uint64_t claim(const Heap &heap, uint64_t &b) {
    for (uint64_t left = heap.blocks; left > 0; left--, b = (b + 1) % heap.blocks) {
        uint64_t nobody = 0;
        if (!heap.words[heap.owners + b].compare_exchange_strong(nobody, 1)) continue;
        uint64_t free = ~heap.words[heap.allocs + b].load();
        if (free != 0) {
            heap.words[kFree].fetch_sub(__builtin_popcountll(free));
            return free;
        }
        heap.words[heap.owners + b].store(0);
    }
    return 0;
}

void retire(const Heap &heap, Mutator &m, uint64_t b, uint64_t free) {
    if (m.used != 0) heap.words[heap.allocs + b].fetch_or(m.used);
    m.used = 0;
    heap.words[kFree].fetch_add(__builtin_popcountll(free));
    heap.words[heap.owners + b].store(0);
}

// Makes a cell in a free one of block b, and stores it in variable v.
inline void create(const Heap &heap, Mutator &m, uint64_t b, uint64_t &free, uint64_t v, uint64_t value) {
    uint64_t i = __builtin_ctzll(free), c = 64 * b + i;
    for (uint64_t f = 0; f < heap.sizes.fields; f++) heap.field(c, f).store(0);
    heap.words[heap.values + c].store(value);
    heap.words[heap.identities + c].store(m.made);
    free &= free - 1;
    m.used |= uint64_t{1} << i;
    m.used_block = b;
    m.made++;
    heap.words[heap.roots + v].store(c + 1);
    m.variables[v] = c + 1;
}

// Stores variable w in field f of variable v's object, which may be the section's own, and dirties the object's card if it is published.
inline void set(const Heap &heap, Mutator &m, uint64_t v, uint64_t f, uint64_t w) {
    if (m.variables[v] == 0) return;
    uint64_t c = m.variables[v] - 1;
    if (heap.words[heap.identities + c].load() / kFlag != 0) return;
    heap.field(c, f).store(m.variables[w]);
    if (m.used_block != c / 64 || (m.used >> c % 64 & 1) == 0) heap.words[heap.dirty + c / 16].store(1);
}

// Makes a cell in variable v of five, with references to those of the four others.
inline void knot(const Heap &heap, Mutator &m, uint64_t b, uint64_t &free, uint64_t v) {
    create(heap, m, b, free, v, 7);
    for (uint64_t f = 0; f < heap.sizes.fields; f++) set(heap, m, v, f, (v + 4 - f) % 5);
}

// Fills all blocks with such cells.
__attribute__((noinline)) void mesh(const Heap &heap, Mutator &m, uint64_t &b) {
    for (uint64_t n = 0; n < heap.blocks; n++) {
        uint64_t free = claim(heap, b);
        for (uint64_t i = 0; i < 64 && free != 0; i++) knot(heap, m, b, free, (64 * n + i) % 5);
        retire(heap, m, b, free);
        b = (b + 1) % heap.blocks;
    }
}

struct Packet {
    uint64_t number, length;
};

bool take(const Heap &heap, uint64_t q, Packet &packet) {
    uint64_t bits = heap.words[heap.pools + q].load();
    while (bits != 0) {
        uint64_t p = __builtin_ctzll(bits), bit = uint64_t{1} << p;
        if (heap.words[heap.pools + q].fetch_and(~bit) & bit) {
            packet = {p, heap.words[heap.heads + p].load()};
            return true;
        }
        bits &= ~bit;
    }
    return false;
}

bool take_input(const Heap &heap, Packet &packet) { return take(heap, 2, packet) || take(heap, 1, packet); }

bool take_output(const Heap &heap, Packet &packet) {
    heap.words[kEmpty].fetch_sub(1);
    if (take(heap, 0, packet)) return true;
    heap.words[kEmpty].fetch_add(1);
    return take(heap, 1, packet);
}

void give(const Heap &heap, const Packet &packet) {
    heap.words[heap.heads + packet.number].store(packet.length);
    uint64_t q = packet.length == 0 ? 0 : 2 * packet.length < heap.sizes.entries ? 1 : 2;
    heap.words[heap.pools + q].fetch_or(uint64_t{1} << packet.number);
    if (packet.length == 0) heap.words[kEmpty].fetch_add(1);
}

inline uint64_t mark(const Heap &heap, Packet &out, uint64_t c) {
    uint64_t bit = uint64_t{1} << c % 64;
    if (heap.words[heap.marks + c / 64].fetch_or(bit) & bit) return 0;
    if (out.length == heap.sizes.entries) {
        Packet other;
        if (take_output(heap, other)) {
            give(heap, out);
            out = other;
        }
    }
    if (out.length == heap.sizes.entries) {
        heap.words[heap.dirty + c / 16].store(1);
    } else {
        heap.entry(out.number, out.length++).store(c + 1);
    }
    return 1;
}

uint64_t scan_roots(const Heap &heap) {
    Packet out;
    if (!take_output(heap, out)) return 0;
    uint64_t marked = 0;
    for (uint64_t v = 0; v < 32; v++) {
        uint64_t word = heap.words[heap.roots + v].load();
        if (word != 0) marked += mark(heap, out, word - 1);
    }
    give(heap, out);
    return marked;
}

// Sees to it that the input has a cell, if one is to be had.
bool find(const Heap &heap, Packet &input, Packet &output) {
    if (input.length != 0) return true;
    if (output.length != 0) {
        std::swap(input, output);
        return true;
    }
    Packet next;
    if (!take_input(heap, next)) return false;
    give(heap, input);
    input = next;
    return true;
}

// Traces at most so many cells, all of which are published: how many it traced.
inline uint64_t trace(const Heap &heap, uint64_t quota) {
    Packet input, output;
    if (!take_input(heap, input) || !take_output(heap, output)) return 0;
    uint64_t done = 0;
    while (done < quota && find(heap, input, output)) {
        uint64_t c = heap.entry(input.number, --input.length).load() - 1;
        if ((heap.words[heap.allocs + c / 64].load() >> c % 64 & 1) == 0) return 0;
        for (uint64_t f = 0; f < heap.sizes.fields; f++) {
            uint64_t word = heap.field(c, f).load();
            if (word != 0) mark(heap, output, word - 1);
        }
        done++;
    }
    give(heap, output);
    give(heap, input);
    return done;
}

bool first_dirty(const Heap &heap) {
    for (uint64_t card = 0; card < heap.cards; card++) {
        if (heap.words[heap.dirty + card].load() == 1) return true;
    }
    return false;
}

}  // namespace
