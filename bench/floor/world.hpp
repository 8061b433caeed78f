// Seats enter and leave the world, stop it, help in another's stop, and refill their caches.
#pragma once
#include <atomic>
#include <chrono>
#include <cstdio>
#include <cstdlib>

#include "cycle.hpp"
#include "mutator.hpp"

namespace bare {

// What a play is told about besides its text. A stop is counted from where its flag was raised to where it is dropped.
struct Events {
    std::atomic<uint64_t> stops{0}, cycles{0}, longest{0};
};
inline Events events;
inline std::chrono::steady_clock::time_point stop_began;

inline void count_stop() {
    uint64_t took = std::chrono::duration_cast<std::chrono::microseconds>(std::chrono::steady_clock::now() - stop_began).count();
    events.stops++;
    if (took > events.longest) events.longest = took;
}

inline bool enter(const Heap &heap, Seat &seat) {
    if ((heap.words[kWorld].fetch_add(1) & kFlag) == 0) {
        seat.season = kNothing;
        return true;
    }
    heap.words[kWorld].fetch_sub(1);
    return false;
}

// Joins the helpers if help is open.
inline void help_once(const Heap &heap) {
    if (heap.words[heap.help].fetch_add(1) & kFlag) {
        uint64_t phase = heap.words[kPhase].load(), rescanned = 0;
        if (phase == kDrain) trace_and_clean(heap, 1024, rescanned);
        if (phase == kSweep) sweep_rest(heap);
    }
    heap.words[heap.help].fetch_sub(1);
}

// Looks some times whether the stop has ended.
inline void pause(const Heap &heap) {
    for (int round = 0; round < 512 && (heap.words[kWorld].load() & kFlag); round++) std::this_thread::yield();
}

inline void await_resumed_helping(const Heap &heap) {
    while (heap.words[kWorld].load() & kFlag) {
        help_once(heap);
        pause(heap);
    }
}

inline void go_out(const Heap &heap, const Seat &seat, uint64_t done) {
    heap.words[kPositions + seat.section].store(done);
    heap.words[kWorld].fetch_sub(1);
}

inline void go_in(const Heap &heap, Seat &seat) {
    do await_resumed_helping(heap);
    while (!enter(heap, seat));
}

inline void await_stopped(const Heap &heap, Seat &seat) {
    stop_began = std::chrono::steady_clock::now();
    while (heap.words[kWorld].load() != kFlag) std::this_thread::yield();
    seat.phase = heap.words[kPhase].load();
}

inline bool raise(const Heap &heap) { return (heap.words[kWorld].fetch_or(kFlag) & kFlag) == 0; }

// Asks for a stop. False if another's came first and has ended.
inline bool stop(const Heap &heap, Seat &seat, uint64_t done) {
    go_out(heap, seat, done);
    if (raise(heap)) {
        await_stopped(heap, seat);
        return true;
    }
    go_in(heap, seat);
    return false;
}

inline void resume(const Heap &heap, Seat &seat) {
    count_stop();
    heap.words[kWorld].fetch_sub(kFlag - 1);
    seat.season = kNothing;
}

inline void collect(const Heap &heap, Seat &seat, uint64_t done) {
    for (bool mine = false; !mine;) {
        heap.words[kPhase].load();
        mine = stop(heap, seat, done);
        if (!mine) continue;
        precise(heap);
        events.cycles++;
        resume(heap, seat);
        heap.words[kPhase].load();
    }
}

inline uint64_t statistic(const Heap &heap, uint64_t word) {
    uint64_t number = heap.words[word].load();
    return number >> 63 ? 0 : std::min<uint64_t>(number, 16777216);
}

// Begins a cycle if free cells run short.
inline void kick_off(const Heap &heap) {
    uint64_t last = statistic(heap, kLast), rescanned = statistic(heap, kRescanned), free = statistic(heap, kFree);
    if (8 * free >= last + rescanned) return;
    uint64_t idle = kIdle;
    heap.words[kPhase].compare_exchange_strong(idle, kMarking);
}

// Pays for a cache while a cycle marks: by its roots, and by a quota of objects.
inline void pay(const Heap &heap, Seat &seat) {
    uint64_t last = statistic(heap, kLast), rescanned = statistic(heap, kRescanned), traced = statistic(heap, kTraced), free = statistic(heap, kFree);
    uint64_t cells = std::popcount(seat.free), left = last + rescanned > traced ? last + rescanned - traced : 0, again = 0;
    free = std::max<uint64_t>(free, 1);
    uint64_t quota = std::min(16 * cells, (cells * left + free - 1) / free);
    Traced paid;
    if (scan_roots(heap, seat.section)) {
        paid = trace_and_clean(heap, quota, again);
        if (paid.stopped == Stopped::NoWork) recycle_deferred(heap);
    }
    heap.words[kTraced].fetch_add(paid.done);
}

inline bool is_full(const Heap &heap) {
    for (uint64_t b = 0; b < heap.blocks; b++) {
        if (~heap.words[heap.allocs + b].load() != 0) return false;
    }
    return true;
}

// The floor has no text for a heap that is full: its scripts fit.
inline void claim_or_fill(const Heap &heap, Seat &seat) {
    precise(heap);
    events.cycles++;
    if (is_full(heap)) {
        fprintf(stderr, "full\n");
        exit(3);
    }
    claim(heap, seat);
}

inline bool refill_in_stop(const Heap &heap, Seat &seat, uint64_t done) {
    if (!stop(heap, seat, done)) return false;
    bool claimed = false;
    if (seat.phase == kMarking) {
        finish_cycle(heap);
        events.cycles++;
        claimed = claim(heap, seat);
    }
    if (!claimed) claim_or_fill(heap, seat);
    resume(heap, seat);
    seat.phase = heap.words[kPhase].load();
    return true;
}

inline bool refill_once(const Heap &heap, Seat &seat, uint64_t done) {
    seat.phase = heap.words[kPhase].load();
    if (seat.phase == kMarking) {
        if (heap.words[kNextCard].load() >= heap.cards && heap.words[kEmpty].load() == 64 + heap.sizes.packets) return refill_in_stop(heap, seat, done);
    } else {
        kick_off(heap);
    }
    if (!claim(heap, seat)) return refill_in_stop(heap, seat, done);
    seat.phase = heap.words[kPhase].load();
    if (seat.phase == kMarking) pay(heap, seat);
    return true;
}

inline void refill(const Heap &heap, Seat &seat, uint64_t done) {
    retire(heap, seat);
    while (!refill_once(heap, seat, done)) {}
}

}  // namespace bare
