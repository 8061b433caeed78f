// The work `pauses` of crates/bench_heaps over Boehm's collector: workers that keep orders below a directory, and replace one with each transaction, in rounds with
// a rest before each. pauses CELLS LIVE WORKERS TRANSACTIONS stop|incremental PERCENT. The heap has so many of a hundred of the bytes of ours, which are 48 for each
// cell; an object takes 48 here, too.
#define GC_THREADS
#include <gc.h>
#include <algorithm>
#include <chrono>
#include <cstdint>
#include <cstdio>
#include <cstdlib>
#include <cstring>
#include <pthread.h>
#include <thread>
#include <vector>

using Clock = std::chrono::steady_clock;

struct Node {
    Node *next[4];
    uint32_t value;
};

static Node *node(uint32_t value) {
    auto *made = static_cast<Node *>(GC_MALLOC(sizeof(Node)));
    if (!made) {
        std::puts("the live set doesn't fit");
        std::exit(3);
    }
    made->value = value;
    return made;
}

// An order: five lines with an item each, and a tree with four leaves. Stores are told, since an incremental collector may ask for it.
static Node *order(uint32_t number) {
    Node *order = node(number), *line = nullptr;
    for (int k = 0; k < 5; k++) {
        Node *item = node(number), *made = node(number);
        made->next[0] = line;
        made->next[1] = item;
        GC_END_STUBBORN_CHANGE(made);
        line = made;
    }
    order->next[0] = line;
    Node *tree = node(number);
    for (int k = 0; k < 4; k++) tree->next[k] = node(number);
    GC_END_STUBBORN_CHANGE(tree);
    order->next[1] = tree;
    GC_END_STUBBORN_CHANGE(order);
    return order;
}

static Node *lowest(Node *at, uint32_t order, int levels) {
    for (int level = levels - 1; level > 0; level--) {
        Node *&way = at->next[(order >> (2 * level)) % 4];
        if (!way) {
            way = node(0);
            GC_END_STUBBORN_CHANGE(at);
        }
        at = way;
    }
    return at;
}

static void replace(Node *directory, uint32_t at, int levels, uint32_t number) {
    Node *made = order(number), *low = lowest(directory, at, levels);
    low->next[at % 4] = made;
    GC_END_STUBBORN_CHANGE(low);
    GC_reachable_here(made);
}

static uint64_t look(Node *directory, uint32_t at, int levels) {
    Node *order = lowest(directory, at, levels)->next[at % 4];
    uint64_t sum = order->value;
    for (Node *line = order->next[0]; line; line = line->next[0]) sum += uint64_t(line->value) + line->next[1]->value;
    sum += order->next[1]->value;
    for (Node *leaf : order->next[1]->next) sum += leaf->value;
    return sum;
}

static const auto ROUND = std::chrono::milliseconds(600), REST = std::chrono::milliseconds(100);

// The nanoseconds of transactions lie outside the collector's heap, and are written once before.
struct Worker {
    Node *directory;
    uint32_t orders, transactions;
    uint64_t number, sum = 0;
    int levels = 1;
    uint32_t made = 0;
    std::vector<uint64_t> *times = nullptr;
};

static uint64_t next(uint64_t x) {
    x ^= x << 13;
    x ^= x >> 7;
    return x ^ x << 17;
}

static void *fill(void *given) {
    auto *w = static_cast<Worker *>(given);
    while (w->orders >> (2 * w->levels)) w->levels++;
    w->directory = node(0);
    for (uint32_t at = 0; at < w->orders; at++) replace(w->directory, at, w->levels, at);
    return nullptr;
}

// A round: transactions until all are made or its time is over.
static void *churn(void *given) {
    auto *w = static_cast<Worker *>(given);
    auto began = Clock::now(), before = began;
    while (w->made < w->transactions && before - began < ROUND) {
        w->number = next(w->number);
        replace(w->directory, uint32_t((w->number >> 20) % w->orders), w->levels, w->made);
        w->number = next(w->number);
        w->sum += look(w->directory, uint32_t((w->number >> 20) % w->orders), w->levels);
        auto now = Clock::now();
        (*w->times)[w->made++] = std::chrono::duration_cast<std::chrono::nanoseconds>(now - before).count();
        before = now;
    }
    return nullptr;
}

static void all(Worker *workers, int k, void *(*part)(void *)) {
    std::vector<pthread_t> threads(k);
    for (int i = 0; i < k; i++) pthread_create(&threads[i], nullptr, part, &workers[i]);
    for (int i = 0; i < k; i++) pthread_join(threads[i], nullptr);
}

static Clock::time_point stopped;
static std::vector<uint64_t> lengths;

static void told(GC_EventType event) {
    if (event == GC_EVENT_PRE_STOP_WORLD) stopped = Clock::now();
    if (event == GC_EVENT_POST_START_WORLD) lengths.push_back(std::chrono::duration_cast<std::chrono::nanoseconds>(Clock::now() - stopped).count());
}

int main(int count, char **words) {
    if (count != 7) return 1;
    uint32_t cells = std::atoi(words[1]), live = std::atoi(words[2]), k = std::atoi(words[3]), transactions = std::atoi(words[4]);
    GC_INIT();
    lengths.reserve(1 << 20);
    size_t bytes = size_t(cells) * 48 / 100 * std::atoi(words[6]);
    GC_expand_hp(bytes);
    GC_set_max_heap_size(bytes);
    if (!std::strcmp(words[5], "incremental")) GC_enable_incremental();
    auto *workers = static_cast<Worker *>(GC_MALLOC_UNCOLLECTABLE(k * sizeof(Worker)));
    for (uint32_t i = 0; i < k; i++) {
        new (&workers[i]) Worker{nullptr, uint32_t(uint64_t(cells) * live / 100 / k * 3 / 49), transactions / k + (i < transactions % k), 88172645463325252u + i};
        workers[i].times = new std::vector<uint64_t>(workers[i].transactions);
    }
    all(workers, k, fill);
    GC_set_on_collection_event(told);
    Clock::duration took{0};
    while (std::any_of(workers, workers + k, [](Worker &w) { return w.made < w.transactions; })) {
        std::this_thread::sleep_for(REST);
        auto start = Clock::now();
        all(workers, k, churn);
        took += Clock::now() - start;
    }
    GC_set_on_collection_event(nullptr);
    auto micros = std::max<int64_t>(1, std::chrono::duration_cast<std::chrono::microseconds>(took).count());
    std::printf("microseconds %lld rate %lld\n", (long long)micros, (long long)(uint64_t(transactions) * 1000000 / micros));
    std::vector<uint64_t> times;
    for (uint32_t i = 0; i < k; i++) times.insert(times.end(), workers[i].times->begin(), workers[i].times->end());
    std::sort(lengths.begin(), lengths.end());
    std::sort(times.begin(), times.end());
    uint64_t sum = 0;
    for (uint64_t length : lengths) sum += length;
    auto at = [](std::vector<uint64_t> &all, size_t part) { return all.empty() ? 0ull : (unsigned long long)all[std::min(all.size() - 1, all.size() * part / 10000)]; };
    std::printf("stops %zu least %llu mean %llu median %llu most99 %llu longest %llu\n", lengths.size(), at(lengths, 0) / 1000,
                (unsigned long long)(sum / std::max<size_t>(1, lengths.size()) / 1000), at(lengths, 5000) / 1000, at(lengths, 9900) / 1000, at(lengths, 10000) / 1000);
    std::printf("latency p50 %llu p99 %llu p999 %llu slowest %llu\n", at(times, 5000), at(times, 9900), at(times, 9990), at(times, 10000));
}
