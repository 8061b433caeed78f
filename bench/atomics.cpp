// The typed steps of bench_steps over bare atomic words: the same operations on the same words, in the same order, and no more.
#include <atomic>
#include <cstdint>
#include <cstdio>
#include <cstdlib>
#include <cstring>
#include <vector>

namespace {

// 64 blocks of 64 cells, and objects of two fields. The words lie in the order of mark_core's layout.
constexpr uint64_t kCells = 4096, kPackets = 2, kEntries = 2, kSections = 1, kFields = 2;
constexpr uint64_t kBlocks = kCells / 64, kCards = kCells / 16;
constexpr uint64_t kWorld = 0, kPhase = 1, kEmpty = 2;
constexpr uint64_t kRoots = 11 + kSections;
constexpr uint64_t kOwners = kRoots + 32 * kSections;
constexpr uint64_t kAllocs = kOwners + kBlocks;
constexpr uint64_t kDirty = kAllocs + 2 * kBlocks;
constexpr uint64_t kHeads = kDirty + kCards;
constexpr uint64_t kIdentities = kHeads + kPackets + kPackets * kEntries;
constexpr uint64_t kValues = kIdentities + kCells;
constexpr uint64_t kReferences = kValues + kCells;
constexpr uint64_t kPools = kReferences + kCells * kFields;
constexpr uint64_t kSeason = kPools + 4 + 1;
constexpr uint64_t kWords = kSeason + 1;

using Word = std::atomic<uint64_t>;

struct Heap {
    Word *words = new Word[kWords]();

    Heap() { words[kEmpty] = 64 + kPackets; }

    // Copies the words out, as the heap of bench_steps gives them.
    bool close() {
        std::vector<uint64_t> copy;
        copy.reserve(kWords);
        for (uint64_t i = 0; i < kWords; i++) copy.push_back(words[i].load(std::memory_order_relaxed));
        delete[] words;
        return copy.size() == kWords;
    }
};

__attribute__((noinline)) uint64_t loads(const Word *words, uint64_t rounds) {
    uint64_t sum = 0;
    for (uint64_t round = 0; round < rounds; round++) sum += words[kEmpty].load();
    return sum;
}

__attribute__((noinline)) uint64_t looks(const Word *words, uint64_t rounds) {
    uint64_t dirty = 0;
    for (uint64_t round = 0; round < rounds; round++) {
        if (words[kDirty + round % kCards].load() == 1) dirty++;
    }
    return dirty;
}

__attribute__((noinline)) void stores(Word *words, uint64_t rounds) {
    for (uint64_t round = 0; round < rounds; round++) words[kDirty + round % kCards].store(1);
}

__attribute__((noinline)) void fetches(Word *words, uint64_t rounds) {
    for (uint64_t round = 0; round < rounds; round++) {
        words[kEmpty].fetch_sub(1);
        words[kEmpty].fetch_add(1);
    }
}

// Makes cells in the free cells of block b, as so many were made before.
uint64_t fill(Word *words, uint64_t b, uint64_t made) {
    uint64_t free = ~words[kAllocs + b].load(), used = 0;
    for (uint64_t i = 0; i < 64; i++) {
        uint64_t c = 64 * b + i;
        if ((free >> i & 1) == 0) continue;
        words[kReferences + kFields * c].store(0);
        words[kReferences + kFields * c + 1].store(0);
        words[kValues + c].store(c);
        words[kIdentities + c].store(made);
        used |= uint64_t{1} << i;
        made++;
        words[kRoots].store(c + 1);
    }
    words[kAllocs + b].fetch_or(used);
    return made;
}

__attribute__((noinline)) uint64_t fill_all(Word *words) {
    uint64_t made = 0;
    for (uint64_t b = 0; b < kBlocks; b++) {
        uint64_t nobody = 0;
        if (!words[kOwners + b].compare_exchange_strong(nobody, 1)) continue;
        made = fill(words, b, made);
        words[kOwners + b].store(0);
    }
    return made;
}

bool make() {
    Heap heap;
    heap.words[kWorld].fetch_add(1);
    if (heap.words[kPhase].load() != 0 || heap.words[kSeason].load() != 0) return false;
    uint64_t made = fill_all(heap.words);
    heap.words[kWorld].fetch_sub(1);
    return heap.close() && made == kCells;
}

bool run(const char *name, uint64_t rounds) {
    if (!strcmp(name, "make") || !strcmp(name, "open")) {
        for (uint64_t round = 0; round < rounds; round++) {
            if (!(name[0] == 'm' ? make() : Heap().close())) return false;
        }
        return true;
    }
    Heap heap;
    bool fine = true;
    if (!strcmp(name, "load")) fine = loads(heap.words, rounds) == rounds * (64 + kPackets);
    else if (!strcmp(name, "look")) fine = looks(heap.words, rounds) == 0;
    else if (!strcmp(name, "store")) stores(heap.words, rounds);
    else if (!strcmp(name, "fetch")) fetches(heap.words, rounds);
    else fine = false;
    return heap.close() && fine;
}

}  // namespace

int main(int count, char **words) {
    if (count != 3) return 1;
    uint64_t rounds = strtoull(words[2], nullptr, 10);
    bool fine = run(words[1], rounds);
    printf("%s %s\n", words[1], fine ? words[2] : "failed");
    return fine ? 0 : 1;
}
