// The words of a peer's command line, those of `gcplay run`, and the text of a play.
#pragma once
#include <algorithm>
#include <cstdint>
#include <cstdio>
#include <cstring>
#include <string>
#include <tuple>
#include <vector>

#include "script.hpp"

namespace text {

struct Options {
    uint32_t cells = 4096, workers = 4, tracers = 1, packets = 64, entries = 32;
    bool counts = false;
};

// `run`, then the options of the program; `--counts` writes what was counted to the standard error.
inline Options options_of(int count, char **words) {
    Options options;
    for (int k = 2; k < count; k++) {
        auto take = [&](const char *name, uint32_t &into) {
            if (!strcmp(words[k], name) && k + 1 < count) into = strtoul(words[++k], nullptr, 10);
        };
        take("--cells", options.cells);
        take("--workers", options.workers);
        take("--tracers", options.tracers);
        take("--packets", options.packets);
        take("--entries", options.entries);
        options.counts |= !strcmp(words[k], "--counts");
    }
    return options;
}

// A printed line: nil, a value, or the count and the sum of a walk.
struct Said {
    enum Kind : uint8_t { Nil, Value, Walk } kind;
    uint32_t label;
    uint64_t count, total;
};

// What a section printed, and how many stores into the catalogue it dropped.
struct Outcome {
    std::vector<Said> said;
    uint32_t dropped = 0;
};

// Section, number and value of an object.
using Survivor = std::tuple<uint32_t, uint32_t, uint32_t>;

inline void write_said(const script::Script &s, const Said &said) {
    printf("%.*s ", static_cast<int>(s.labels[said.label].size()), s.labels[said.label].data());
    if (said.kind == Said::Nil) printf("nil\n");
    if (said.kind == Said::Value) printf("%lu\n", said.total);
    if (said.kind == Said::Walk) printf("%lu %lu\n", said.count, said.total);
}

inline void write(const script::Script &s, const std::vector<Outcome> &outcomes, std::vector<Survivor> &survivors) {
    for (size_t w = 1; w < outcomes.size(); w++) {
        printf("warehouse %zu\n", w);
        for (const Said &said : outcomes[w].said) write_said(s, said);
        printf("dropped %u\n", outcomes[w].dropped);
    }
    std::sort(survivors.begin(), survivors.end());
    printf("survivors %zu\n", survivors.size());
    for (auto [section, number, value] : survivors) printf("%u %u %u\n", section, number, value);
}

}  // namespace text
