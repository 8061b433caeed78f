// A queue and a map that threads share, over the collector of Boehm, Demers and Weiser: the works `queue` and `map` of crates/bench_heaps, and the same exchanges.
// boehm queue|map THREADS ROUNDS MEGABYTES. The heap has that size from the beginning. It has to grow
// if a thread that stands still, or a word that looks like a reference, keeps an old node of the queue, and with it all that came behind.
#define GC_THREADS
#include <gc.h>

#include <atomic>
#include <cstdint>
#include <cstdio>
#include <cstdlib>
#include <cstring>
#include <thread>
#include <vector>

namespace {

// What an object of ours has besides its two references: its value, and its identity.
struct Node {
    std::atomic<Node *> next;
    Node *item;
    uint64_t value, identity;
};

Node *make(uint64_t value, Node *next, Node *item) {
    void *room = GC_MALLOC(sizeof(Node));
    if (room == nullptr) {
        puts("the heap is full");
        exit(3);
    }
    Node *node = new (room) Node{};
    node->value = value;
    node->item = item;
    node->next.store(next);
    return node;
}

struct Tally {
    uint64_t count = 0, sum = 0;

    void add(uint64_t number) {
        count++;
        sum += number;
    }
};

// The queue of Michael and Scott (PODC 1996).
struct Queue {
    std::atomic<Node *> first, last;

    void put(uint64_t number) {
        Node *node = make(number, nullptr, nullptr);
        while (true) {
            Node *tail = last.load(), *behind = tail->next.load();
            if (behind != nullptr) {
                last.compare_exchange_strong(tail, behind);
            } else if (tail->next.compare_exchange_strong(behind, node)) {
                last.compare_exchange_strong(tail, node);
                return;
            }
        }
    }

    bool take(uint64_t *number) {
        while (true) {
            Node *head = first.load(), *tail = last.load(), *behind = head->next.load();
            if (head == tail) {
                if (behind == nullptr) return false;
                last.compare_exchange_strong(tail, behind);
            } else if (first.compare_exchange_strong(head, behind)) {
                *number = behind->value;
                behind->item = nullptr;
                return true;
            }
        }
    }
};

// A map whose every change is one exchange of a chain, which is made anew up to the entry that changes.
struct Map {
    struct Row {
        std::atomic<Node *> chains[16];
    };

    Row *rows[16];

    std::atomic<Node *> &chain_of(uint32_t key) {
        uint32_t hash = key * 2654435761u >> 16;
        return rows[hash / 16 % 16]->chains[hash % 16];
    }

    static Node *seek(Node *entry, uint32_t key) {
        while (entry != nullptr && entry->value != key) entry = entry->next.load();
        return entry;
    }

    Node *find(uint32_t key) {
        Node *entry = seek(chain_of(key).load(), key);
        return entry == nullptr ? nullptr : entry->item;
    }

    Node *change(uint32_t key, Node *kept) {
        std::atomic<Node *> &chain = chain_of(key);
        while (true) {
            Node *found = chain.load(), *entry = seek(found, key), *made = entry == nullptr ? found : entry->next.load();
            if (entry != nullptr) {
                for (Node *before = found; before != entry; before = before->next.load()) made = make(before->value, made, before->item);
            }
            if (kept != nullptr) made = make(key, made, kept);
            if (chain.compare_exchange_strong(found, made)) return entry == nullptr ? nullptr : entry->item;
        }
    }
};

const uint32_t keys = 1024;

void pairs(Queue *queue, uint32_t rounds, Tally *tally) {
    for (uint32_t n = 0; n < rounds; n++) {
        uint64_t number;
        queue->put(n);
        if (queue->take(&number)) tally->add(number);
    }
}

void mix(Map *map, uint32_t threads, uint32_t rounds, uint32_t k, Tally *tally) {
    uint32_t drawn = k;
    for (uint32_t n = 0; n < rounds; n++) {
        drawn = drawn * 1664525 + 1013904223;
        uint32_t key = (drawn >> 12) % (keys / threads) * threads + k;
        uint32_t what = (drawn >> 4) % 10;
        if (what == 0) {
            map->change(key, make(drawn, nullptr, nullptr));
        } else if (what == 1) {
            map->change(key, nullptr);
        } else if (Node *found = map->find(key)) {
            tally->add(found->value);
        }
    }
}

template <class Do>
void in_thread(Do what) {
    GC_stack_base base;
    GC_get_stack_base(&base);
    GC_register_my_thread(&base);
    what();
    GC_unregister_my_thread();
}

}  // namespace

int main(int words, char **word) {
    if (words != 5) return 1;
    bool is_queue = strcmp(word[1], "queue") == 0;
    uint32_t threads = atoi(word[2]), rounds = atoi(word[3]);
    size_t bytes = static_cast<size_t>(atoi(word[4])) << 20;
    GC_INIT();
    GC_allow_register_threads();
    if (bytes > GC_get_heap_size()) GC_expand_hp(bytes - GC_get_heap_size());
    Queue *queue = static_cast<Queue *>(GC_MALLOC_UNCOLLECTABLE(sizeof(Queue)));
    Map *map = static_cast<Map *>(GC_MALLOC_UNCOLLECTABLE(sizeof(Map)));
    Node *first = make(0, nullptr, nullptr);
    queue->first.store(first);
    queue->last.store(first);
    for (Map::Row *&row : map->rows) row = static_cast<Map::Row *>(GC_MALLOC(sizeof(Map::Row)));
    if (!is_queue) {
        for (uint32_t key = 0; key < keys; key++) map->change(key, make(key, nullptr, nullptr));
    }
    std::vector<Tally> tallies(threads);
    std::vector<std::thread> all;
    for (uint32_t k = 0; k < threads; k++) {
        all.emplace_back([=, &tallies] {
            in_thread([=, &tallies] { is_queue ? pairs(queue, rounds, &tallies[k]) : mix(map, threads, rounds, k, &tallies[k]); });
        });
    }
    for (std::thread &thread : all) thread.join();
    Tally whole;
    for (const Tally &tally : tallies) {
        whole.count += tally.count;
        whole.sum += tally.sum;
    }
    printf("count %lu sum %lu\n", whole.count, whole.sum);
    if (getenv("TELL")) fprintf(stderr, "collections %lu\n", static_cast<unsigned long>(GC_get_gc_no()));
}
