/*
 * A tree, a list, and a stack that threads share, by handles of managed_heap.hpp; a status that isn't ok throws.
 *
 * A tree is built with one slot a level and counted; a list is built in place, by `make` whose result is one of its own fields, and summed; four threads, each
 * with a mutator of its own, push onto one stack beside a tracer, and its sum is that of all that they pushed. Cells are few, so that all of it collects.
 */
#include "test.hpp"
#include <thread>
#include <vector>

using mh::must;

enum : uint32_t { rest = 0, depth = 14, length = 20000, threads = 4, pushes = 5000 };

static void build(mh::mutator &m, mh::local &out, uint32_t height) {
    if (height == 0) return must(m.make(out, 1));
    mh::kept first;
    mh::local one, other;
    build(m, one, height - 1);
    must(first.keep(one));
    one.drop();
    build(m, other, height - 1);
    must(first.get(one));
    must(m.make(out, height, {one, other}));
}

static uint32_t count(const mh::local &tree) {
    uint32_t nodes = 1;
    mh::local children[2];
    must(tree.fields(children, 2));
    for (const mh::local &child : children) {
        bool is_nil;
        must(child.is_nil(is_nil));
        if (!is_nil) nodes += count(child);
    }
    return nodes;
}

static uint64_t sum(const mh::local &list) {
    mh::local at;
    bool is_nil;
    uint64_t all = 0;
    must(list.copy(at));
    for (must(at.is_nil(is_nil)); !is_nil; must(at.is_nil(is_nil))) {
        uint32_t value;
        must(at.value(value));
        all += value;
        must(at.get(rest, at));
    }
    return all;
}

static void trees(mh::world &world) {
    mh::mutator m;
    must(world.take(m));
    mh::inside in(m);
    must(in.entered());
    for (int round = 0; round < 4; round++) {
        mh::local tree;
        build(m, tree, depth);
        expect(count(tree), (1u << (depth + 1)) - 1, "nodes of a tree");
    }
    std::printf("structures: 4 trees of %u nodes\n", (1u << (depth + 1)) - 1);
}

static void lists(mh::world &world) {
    mh::mutator m;
    must(world.take(m));
    mh::inside in(m);
    must(in.entered());
    for (int round = 0; round < 4; round++) {
        mh::local list;
        must(m.nil(list));
        for (uint32_t k = 1; k <= length; k++) must(m.make(list, k, {list}));
        expect(sum(list), uint64_t{length} * (length + 1) / 2, "the sum of a list");
    }
    std::printf("structures: 4 lists of %u\n", uint32_t{length});
}

static void push(mh::mutator m, uint32_t number) {
    mh::inside in(m);
    must(in.entered());
    mh::local root, first, pushed;
    must(m.root(root));
    for (uint32_t k = 0; k < pushes; k++) {
        bool won = false;
        must(m.make(pushed, number * pushes + k));
        while (!won) {
            must(m.safe_point());
            must(root.get(rest, first));
            must(pushed.set(rest, first));
            must(root.exchange(rest, first, pushed, won));
        }
    }
}

static void stack() {
    mh::world world;
    mh::tracer tracer;
    must(world.open(sizes_of(32768, 2, threads + 1, 1, 0)));
    must(world.take(tracer));
    std::thread marking([&] { expect(tracer.trace(), mh::status::dismissed, "the end of a tracer"); });
    std::vector<std::thread> pushing;
    for (uint32_t number = 0; number < threads; number++) {
        mh::mutator m;
        must(world.take(m));
        pushing.emplace_back(push, std::move(m), number);
    }
    for (std::thread &it : pushing) it.join();
    must(world.dismiss());
    marking.join();
    mh::mutator m;
    must(world.take(m));
    mh::inside in(m);
    must(in.entered());
    mh::local root, list;
    must(m.root(root));
    must(root.get(rest, list));
    expect(sum(list), uint64_t{threads * pushes} * (threads * pushes - 1) / 2, "the sum of what threads pushed");
    std::printf("structures: a stack that %u threads pushed %u objects onto\n", uint32_t{threads}, threads * pushes);
}

int main() {
    try {
        mh::world world;
        must(world.open(sizes_of(65536, 2, 1, 0, 64)));
        trees(world);
        lists(world);
        stack();
    } catch (const mh::error &wrong) {
        std::printf("WRONG: %s\n", wrong.what());
        return 1;
    }
    return 0;
}
