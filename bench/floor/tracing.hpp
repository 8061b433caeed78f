// Packets are taken and given back, cells are marked and scanned, roots are scanned, and objects are traced out of packets.
#pragma once
#include <utility>

#include "words.hpp"

namespace bare {

// A packet in hand, or none.
struct Packet {
    uint64_t number = kNothing, length = 0;
    explicit operator bool() const { return number != kNothing; }
};

enum class Stopped { Quota, NoWork, NoPacket };

struct Traced {
    uint64_t done = 0;
    Stopped stopped = Stopped::Quota;
};

constexpr uint64_t kEmptyPool = 0, kLow = 1, kHigh = 2, kDeferred = 3;

inline void give(const Heap &heap, const Packet &packet, bool deferred) {
    heap.words[heap.heads + packet.number].store(packet.length);
    uint64_t q = deferred ? kDeferred : packet.length == 0 ? kEmptyPool : 2 * packet.length < heap.sizes.entries ? kLow : kHigh;
    heap.pool(q, packet.number / 64).fetch_or(uint64_t{1} << packet.number % 64);
    if (packet.length == 0) heap.words[kEmpty].fetch_add(1);
}

inline Packet take_at(const Heap &heap, uint64_t q, uint64_t p) {
    uint64_t bit = uint64_t{1} << p % 64;
    if ((heap.pool(q, p / 64).fetch_and(~bit) & bit) == 0) return {};
    return {p, heap.words[heap.heads + p].load()};
}

// A packet of a pool, with room if that is wanted.
inline Packet take(const Heap &heap, uint64_t q, bool room) {
    for (uint64_t g = 0; g < heap.pool_words; g++) {
        for (uint64_t bits = heap.pool(q, g).load(); bits != 0; bits &= bits - 1) {
            Packet packet = take_at(heap, q, 64 * g + __builtin_ctzll(bits));
            if (!packet) continue;
            if (!room || packet.length < heap.sizes.entries) return packet;
            give(heap, packet, false);
        }
    }
    return {};
}

inline Packet take_input(const Heap &heap) {
    Packet packet = take(heap, kHigh, false);
    return packet ? packet : take(heap, kLow, false);
}

inline Packet take_output(const Heap &heap) {
    heap.words[kEmpty].fetch_sub(1);
    Packet packet = take(heap, kEmptyPool, false);
    if (packet) return packet;
    heap.words[kEmpty].fetch_add(1);
    packet = take(heap, kLow, false);
    return packet ? packet : take(heap, kHigh, true);
}

inline Packet take_some(const Heap &heap) {
    Packet packet = take_output(heap);
    return packet ? packet : take_input(heap);
}

// Marks a cell and pushes it if it was white. True if no packet had room, and its card was dirtied instead.
inline bool mark(const Heap &heap, Packet &out, uint64_t c) {
    uint64_t bit = uint64_t{1} << c % 64;
    if (heap.words[heap.marks + c / 64].fetch_or(bit) & bit) return false;
    if (out.length == heap.sizes.entries) {
        if (Packet other = take_output(heap)) {
            give(heap, out, false);
            out = other;
        }
    }
    if (out.length == heap.sizes.entries) {
        heap.words[heap.dirty + c / 16].store(1);
        return true;
    }
    heap.entry(out.number, out.length++).store(c + 1);
    return false;
}

inline bool scan_cell(const Heap &heap, Packet &out, uint64_t c) {
    bool overflowed = false;
    for (uint64_t f = 0; f < heap.sizes.fields; f++) {
        uint64_t word = heap.field(c, f).load();
        if (word != 0) overflowed |= mark(heap, out, word - 1);
    }
    return overflowed;
}

inline void mark_roots(const Heap &heap, Packet &out, uint64_t section) {
    for (uint64_t v = 0; v < 32; v++) {
        uint64_t word = heap.words[heap.roots + 32 * section + v].load();
        if (word != 0) mark(heap, out, word - 1);
    }
}

inline bool scan_roots(const Heap &heap, uint64_t section) {
    Packet out = take_some(heap);
    if (!out) return false;
    mark_roots(heap, out, section);
    give(heap, out, false);
    return true;
}

// The packets of a tracing seat.
struct Packets {
    Packet input, output, deferred;
};

// Sees to it that the input has a cell, if one is to be had.
inline bool find_input(const Heap &heap, Packets &packets) {
    if (packets.input.length != 0) return true;
    if (packets.output && packets.output.length != 0) {
        std::swap(packets.input, packets.output);
        return true;
    }
    Packet next = take_input(heap);
    if (!next) return false;
    std::swap(packets.input, next);
    if (packets.output) {
        give(heap, next, false);
    } else {
        packets.output = next;
    }
    return true;
}

// Puts a cell off that isn't published.
inline void put_off(const Heap &heap, Packets &packets, uint64_t c) {
    if (!packets.deferred) packets.deferred = take_output(heap);
    if (!packets.deferred) {
        heap.words[heap.dirty + c / 16].store(1);
        return;
    }
    heap.entry(packets.deferred.number, packets.deferred.length++).store(c + 1);
    if (packets.deferred.length == heap.sizes.entries) {
        give(heap, packets.deferred, true);
        packets.deferred = {};
    }
}

inline Traced trace_all(const Heap &heap, Packets &packets, uint64_t quota) {
    Traced traced;
    for (; traced.done < quota; traced.done++) {
        if (!find_input(heap, packets)) {
            traced.stopped = Stopped::NoWork;
            return traced;
        }
        uint64_t c = heap.entry(packets.input.number, --packets.input.length).load() - 1;
        if (heap.words[heap.allocs + c / 64].load() >> c % 64 & 1) {
            scan_cell(heap, packets.output ? packets.output : packets.input, c);
        } else {
            put_off(heap, packets, c);
        }
    }
    return traced;
}

inline Traced trace(const Heap &heap, uint64_t quota) {
    if (quota == 0) return {};
    Packets packets;
    packets.input = take_input(heap);
    if (!packets.input) return {0, Stopped::NoWork};
    packets.output = take_output(heap);
    Traced traced = trace_all(heap, packets, quota);
    if (packets.deferred) give(heap, packets.deferred, true);
    if (packets.output) give(heap, packets.output, false);
    give(heap, packets.input, false);
    return traced;
}

// Brings back what was put off.
inline void recycle_deferred(const Heap &heap) {
    for (uint64_t p = 0; p < heap.sizes.packets; p++) {
        if ((heap.pool(kDeferred, p / 64).load() >> p % 64 & 1) == 0) continue;
        if (Packet packet = take_at(heap, kDeferred, p)) give(heap, packet, false);
    }
}

}  // namespace bare
