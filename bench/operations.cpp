// The operations of bench_steps over bare atomic words: the same operations on the same words, in the same order, and no more. The sizes of the heap
// are known only as it runs, as there.
#include "heap.hpp"

#include <cstdint>
#include <cstdio>
#include <cstdlib>
#include <cstring>

namespace {

// 64 blocks of 64 cells, and objects of four fields.
constexpr Sizes kSizes = {4096, 64, 64, 1, 4};
bool begin(const Heap &heap) {
    heap.words[kWorld].fetch_add(1);
    uint64_t idle = 0;
    heap.words[kPhase].compare_exchange_strong(idle, 1);
    return heap.words[kPhase].load() == 1 && heap.words[heap.season].load() % 2 == 0;
}

__attribute__((noinline)) void fill_all(const Heap &heap, Mutator &m) {
    uint64_t b = 0;
    for (uint64_t n = 0; n < heap.blocks; n++) {
        uint64_t free = claim(heap, b);
        uint64_t block = b;
        for (uint64_t i = 0; i < 64 && free != 0; i++) create(heap, m, block, free, 0, i);
        retire(heap, m, block, free);
        b = (b + 1) % heap.blocks;
    }
}

bool make() {
    Heap heap(kSizes);
    Mutator m;
    if (!begin(heap)) return false;
    fill_all(heap, m);
    heap.words[kWorld].fetch_sub(1);
    return heap.close() && m.made == heap.sizes.cells;
}

__attribute__((noinline)) void stores(const Heap &heap, Mutator &m, uint64_t rounds) {
    for (uint64_t round = 0; round < rounds; round++) set(heap, m, round % 4, round / 4 % 4, 0);
}

bool store(uint64_t rounds, bool published) {
    Heap heap(kSizes);
    Mutator m;
    if (!begin(heap)) return false;
    uint64_t b = 0, free = claim(heap, b);
    for (uint64_t v = 0; v < 4; v++) create(heap, m, b, free, v, 7);
    if (published) {
        heap.words[heap.allocs + b].fetch_or(m.used);
        m.used = 0;
    }
    stores(heap, m, rounds);
    retire(heap, m, b, free);
    heap.words[kWorld].fetch_sub(1);
    return heap.close();
}

__attribute__((noinline)) uint64_t trace_all(const Heap &heap) {
    scan_roots(heap);
    return trace(heap, 10000);
}

bool traced(bool tracing) {
    Heap heap(kSizes);
    Mutator m;
    if (!begin(heap)) return false;
    uint64_t b = 0;
    mesh(heap, m, b);
    uint64_t done = tracing ? trace_all(heap) : heap.sizes.cells;
    heap.words[kWorld].fetch_sub(1);
    return heap.close() && done == heap.sizes.cells;
}

__attribute__((noinline)) uint64_t looks(const Heap &heap, uint64_t rounds) {
    uint64_t dirty = 0;
    for (uint64_t round = 0; round < rounds; round++) {
        if (first_dirty(heap)) dirty++;
    }
    return dirty;
}

__attribute__((noinline)) bool settle(const Heap &heap) {
    scan_roots(heap);
    return !first_dirty(heap) && heap.words[kEmpty].load() == 64 + heap.sizes.packets;
}

void prepare(const Heap &heap) {
    heap.words[kPhase].exchange(2);
    heap.words[kNextBlock].store(0);
}

__attribute__((noinline)) uint64_t sweep(const Heap &heap) {
    uint64_t freed = 0;
    heap.words[kPhase].exchange(3);
    while (heap.words[kNextBlock].load() < heap.blocks) {
        uint64_t b = heap.words[kNextBlock].fetch_add(1);
        if (b >= heap.blocks) break;
        uint64_t alloc = heap.words[heap.allocs + b].load(), kept = alloc & heap.words[heap.marks + b].load();
        heap.words[heap.allocs + b].store(kept);
        heap.words[heap.marks + b].store(0);
        freed += __builtin_popcountll(alloc & ~kept);
    }
    heap.words[kPhase].exchange(0);
    return freed;
}

bool end(const Heap &heap) { return settle(heap) && sweep(heap) == 0; }

// So many cycles with a sweep each, or one that looks so often whether anything is left to trace.
bool cycles(const Heap &heap, uint64_t rounds, bool swept) {
    if (!swept) prepare(heap);
    for (uint64_t round = 0; round < rounds; round++) {
        if (swept) prepare(heap);
        if (!(swept ? end(heap) : settle(heap))) return false;
    }
    return swept || end(heap);
}

bool stopped(uint64_t rounds, bool swept) {
    Heap heap(kSizes);
    heap.words[kWorld].fetch_or(kFlag);
    if (heap.words[kWorld].load() != kFlag || heap.words[kPhase].load() != 0) return false;
    bool fine = cycles(heap, rounds, swept);
    heap.words[kWorld].fetch_and(~kFlag);
    return heap.close() && fine;
}

bool run(const char *name, uint64_t rounds) {
    if (!strcmp(name, "publish") || !strcmp(name, "hide")) return store(rounds, name[0] == 'p');
    if (!strcmp(name, "drain") || !strcmp(name, "sweep")) return stopped(rounds, name[0] == 's');
    if (!strcmp(name, "look")) {
        Heap heap(kSizes);
        if (!begin(heap)) return false;
        bool fine = looks(heap, rounds) == 0;
        heap.words[kWorld].fetch_sub(1);
        return heap.close() && fine;
    }
    for (uint64_t round = 0; round < rounds; round++) {
        bool fine = false;
        if (!strcmp(name, "make")) fine = make();
        else if (!strcmp(name, "mesh") || !strcmp(name, "trace")) fine = traced(name[0] == 't');
        else if (!strcmp(name, "open")) fine = Heap(kSizes).close();
        if (!fine) return false;
    }
    return true;
}

}  // namespace

int main(int count, char **words) {
    if (count != 3) return 1;
    uint64_t rounds = strtoull(words[2], nullptr, 10);
    bool fine = run(words[1], rounds);
    printf("%s %s\n", words[1], fine ? words[2] : "failed");
    return fine ? 0 : 1;
}
