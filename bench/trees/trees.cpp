// Binary trees over the collector of Boehm, Demers and Weiser: the work `trees` of crates/bench_heaps, line by line. boehm DEPTH WORKERS
// The heap isn't bounded, and memory is freed only by the collector, which marks in as many threads as it was built for.
#define GC_THREADS
#include <gc.h>

#include <cstdint>
#include <cstdio>
#include <cstdlib>
#include <thread>
#include <vector>

namespace {

// What an object of ours has besides its two references: its value, and its identity.
struct Node {
    Node *left, *right;
    uint64_t value, identity;
};

Node *make(unsigned depth) {
    Node *left = depth ? make(depth - 1) : nullptr;
    Node *right = depth ? make(depth - 1) : nullptr;
    Node *node = static_cast<Node *>(GC_MALLOC(sizeof(Node)));
    node->left = left;
    node->right = right;
    return node;
}

uint64_t count(const Node *node) { return node ? 1 + count(node->left) + count(node->right) : 0; }

// The short-lived trees of one worker, depth by depth.
void play(unsigned depth, unsigned workers, unsigned at, uint64_t *checks) {
    for (unsigned i = 0; i < 5 && 4 + 2 * i <= depth; i++) {
        unsigned trees = 1u << (depth - 2 * i);
        unsigned share = (trees + (workers - 1 - at)) / workers;
        for (unsigned tree = 0; tree < share; tree++) checks[i] += count(make(4 + 2 * i));
    }
}

void play_in_thread(unsigned depth, unsigned workers, unsigned at, uint64_t *checks) {
    GC_stack_base base;
    GC_get_stack_base(&base);
    GC_register_my_thread(&base);
    play(depth, workers, at, checks);
    GC_unregister_my_thread();
}

}  // namespace

int main(int words, char **word) {
    if (words != 3) return 1;
    unsigned depth = atoi(word[1]), workers = atoi(word[2]);
    GC_INIT();
    GC_allow_register_threads();
    printf("stretch tree of depth %u\t check: %lu\n", depth + 1, count(make(depth + 1)));
    Node *kept = make(depth);
    std::vector<uint64_t> checks(5 * workers);
    std::vector<std::thread> threads;
    for (unsigned at = 0; at < workers; at++) threads.emplace_back(play_in_thread, depth, workers, at, &checks[5 * at]);
    for (auto &thread : threads) thread.join();
    for (unsigned i = 0; i < 5 && 4 + 2 * i <= depth; i++) {
        uint64_t sum = 0;
        for (unsigned at = 0; at < workers; at++) sum += checks[5 * at + i];
        printf("%u\t trees of depth %u\t check: %lu\n", 1u << (depth - 2 * i), 4 + 2 * i, sum);
    }
    printf("long lived tree of depth %u\t check: %lu\n", depth, count(kept));
}
