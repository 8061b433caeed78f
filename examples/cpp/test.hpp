/* What the programs of this folder test by: the first that is wrong is written, and ends the program with status 1. */
#ifndef TEST_HPP
#define TEST_HPP

#include "managed_heap.hpp"
#include <cinttypes>
#include <cstdio>
#include <cstdlib>

inline void expect(uint64_t is, uint64_t wanted, const char *what) {
    if (is == wanted) return;
    std::printf("WRONG: %s: %" PRIu64 ", expected %" PRIu64 "\n", what, is, wanted);
    std::exit(1);
}

inline void expect(mh::status is, mh::status wanted, const char *what) {
    if (is == wanted) return;
    std::printf("WRONG: %s: %s, expected: %s\n", what, mh::text(is), mh::text(wanted));
    std::exit(1);
}

inline void done(mh::status is, const char *what) { expect(is, mh::status::ok, what); }

inline mh_sizes sizes_of(uint32_t cells, uint32_t fields, uint32_t mutators, uint32_t tracers, uint32_t slots) {
    mh_sizes sizes = {};
    sizes.cells = cells;
    sizes.fields = fields;
    sizes.mutators = mutators;
    sizes.tracers = tracers;
    sizes.shared = 1;
    sizes.slots = slots;
    return sizes;
}

#endif
