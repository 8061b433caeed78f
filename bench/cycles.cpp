// The collections of bench_steps over bare atomic words: the same operations on the same words, in the same order, and no more. The sizes of the heap
// are known only as it runs, as there.
#include "heap.hpp"

#include <chrono>
#include <cstdint>
#include <cstdio>
#include <cstdlib>
#include <cstring>

namespace {

constexpr uint64_t kFull = 5;

// How many cells a round of the drain traces at most.
constexpr uint64_t kRound = 65536;

// Brings back the packets that were put off: there are none.
bool recycle(const Heap &heap) {
    for (uint64_t p = 0; p < heap.sizes.packets; p++) {
        if (heap.words[heap.pools + 3 + p / 64].load() >> p % 64 & 1) return false;
    }
    return true;
}

void open_help(const Heap &heap) { heap.words[heap.help].fetch_or(kFlag); }

void close_help(const Heap &heap) {
    heap.words[heap.help].fetch_sub(kFlag);
    while (heap.words[heap.help].load() != 0) {}
}

// Sees to the roots once more: what they refer to is marked.
bool see_to_roots(const Heap &heap) { return scan_roots(heap) == 0; }

bool is_drained(const Heap &heap) { return !first_dirty(heap) && heap.words[kEmpty].load() == 64 + heap.sizes.packets; }

// The drain of a stop: false if it would need another round.
bool drain(const Heap &heap) {
    heap.words[kPhase].exchange(kDrain);
    heap.words[kNextCard].store(0);
    scan_roots(heap);
    open_help(heap);
    if (!recycle(heap)) return false;
    trace(heap, kRound);
    if (first_dirty(heap)) return false;
    close_help(heap);
    heap.words[kNextBlock].store(0);
    return see_to_roots(heap) && is_drained(heap);
}

uint64_t sweep(const Heap &heap) {
    uint64_t freed = 0;
    heap.words[kPhase].exchange(kSweep);
    open_help(heap);
    while (heap.words[kNextBlock].load() < heap.blocks) {
        uint64_t b = heap.words[kNextBlock].fetch_add(1);
        if (b >= heap.blocks) break;
        uint64_t alloc = heap.words[heap.allocs + b].load(), kept = alloc & heap.words[heap.marks + b].load();
        heap.words[heap.allocs + b].store(kept);
        heap.words[heap.marks + b].store(0);
        freed += __builtin_popcountll(alloc & ~kept);
    }
    close_help(heap);
    heap.words[kPhase].exchange(kIdle);
    return freed;
}

// Sets the numbers for the next cycle.
void settle(const Heap &heap) {
    uint64_t marked = 0;
    for (uint64_t b = 0; b < heap.blocks; b++) marked += __builtin_popcountll(heap.words[heap.allocs + b].load());
    heap.words[kLast].store(0);
    heap.words[kLast].fetch_add(marked);
    heap.words[kRescanned].store(0);
    heap.words[kRescanned].fetch_add(0);
    heap.words[kFree].store(0);
    heap.words[kFree].fetch_add(heap.sizes.cells - marked);
    heap.words[kTraced].store(0);
    heap.words[kNextCard].store(0);
}

// A mutator collects, and goes on: false if the drain didn't end at once. Nobody else is there.
__attribute__((noinline)) bool collect(const Heap &heap) {
    if (heap.words[kPhase].load() == kFull) return false;
    heap.words[kPositions].store(0);
    heap.words[kWorld].fetch_sub(1);
    if (heap.words[kWorld].fetch_or(kFlag) & kFlag) return false;
    while (heap.words[kWorld].load() != kFlag) {}
    if (heap.words[kPhase].load() != kIdle) return false;
    if (heap.words[kPhase].load() != kIdle || !drain(heap)) return false;
    sweep(heap);
    settle(heap);
    heap.words[kWorld].fetch_sub(kFlag - 1);
    return heap.words[kPhase].load() != kFull;
}

// A collection, and the lesser of its nanoseconds and these.
bool timed(const Heap &heap, uint64_t &least) {
    auto start = std::chrono::steady_clock::now();
    bool fine = collect(heap);
    auto took = std::chrono::steady_clock::now() - start;
    uint64_t nanoseconds = std::chrono::duration_cast<std::chrono::nanoseconds>(took).count();
    if (nanoseconds < least) least = nanoseconds;
    return fine;
}

// Collections in a new heap with a mutator that has entered: whether each came to its end, and as many cells are free as there should be.
bool run(const char *content, uint64_t cells, uint64_t rounds, uint64_t &least) {
    Heap heap(Sizes{cells, 8, 64, 1, 4});
    Mutator m;
    uint64_t b = 0;
    bool dead = !strcmp(content, "dead"), live = !strcmp(content, "live");
    heap.words[kFree].store(cells);
    heap.words[kWorld].fetch_add(1);
    if (live) mesh(heap, m, b);
    for (uint64_t round = 0; round < rounds; round++) {
        if (dead) {
            mesh(heap, m, b);
            for (uint64_t v = 0; v < 5; v++) heap.words[heap.roots + v].store(m.variables[v] = 0);
        }
        if (!timed(heap, least)) return false;
    }
    bool fine = heap.words[kFree].load() == (live ? 0 : cells);
    heap.words[kWorld].fetch_sub(1);
    return heap.close() && fine;
}

}  // namespace

int main(int count, char **words) {
    if (count != 4) return 1;
    uint64_t least = ~uint64_t{0};
    bool fine = run(words[1], strtoull(words[2], nullptr, 10), strtoull(words[3], nullptr, 10), least);
    if (fine) printf("%llu\n", static_cast<unsigned long long>(least));
    else printf("failed\n");
    return fine ? 0 : 1;
}
