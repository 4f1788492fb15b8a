// Random numbers that a seed repeats (SplitMix64), and the sets made of them: those of docs/BENCHMARK.md, by the same seeds.
#pragma once

#include "peer.hpp"

namespace peers {

class Random {
    uint64_t state;

public:
    explicit Random(uint64_t seed) : state(seed) {}

    uint64_t word() {
        uint64_t z = state += 0x9E3779B97F4A7C15;
        z = (z ^ (z >> 30)) * 0xBF58476D1CE4E5B9;
        z = (z ^ (z >> 27)) * 0x94D049BB133111EB;
        return z ^ (z >> 31);
    }

    // A number below `limit`, which is not 0.
    uint64_t below(uint64_t limit) { return word() % limit; }

    // `len` of the ids below n, ascending: each such set is as likely as any other.
    std::vector<uint32_t> ids(uint32_t n, uint32_t len) {
        std::vector<uint32_t> ids;
        for (uint32_t id = 0; id < n && len > 0; id++) {
            if (below(n - id) < len) {
                ids.push_back(id);
                len--;
            }
        }
        return ids;
    }

    // `count` runs of `len` ids below n, with an absent id or more between two runs.
    std::vector<uint32_t> clusters(uint32_t n, uint32_t count, uint32_t len) {
        std::vector<uint32_t> all;
        uint32_t before = 0;
        for (uint32_t place : ids(n - count * len + 1, count)) {
            for (uint32_t i = 0; i < len; i++) all.push_back(place + before + i);
            before += len;
        }
        return all;
    }
};

struct Input {
    std::string name;
    std::vector<Set> sets;

    size_t ids() const {
        size_t sum = 0;
        for (const Set &set : sets) sum += set.ids.size();
        return sum;
    }
};

inline Input one(const char *name, uint32_t n, std::vector<uint32_t> ids) { return {name, {{n, std::move(ids)}}}; }

inline std::vector<Input> inputs() {
    const uint32_t most = 1048576;
    std::vector<Input> all;
    all.push_back(one("1,000 of 1,048,576", most, Random(24).ids(most, 1000)));
    all.push_back(one("10,000 of 1,048,576", most, Random(24).ids(most, 10000)));
    all.push_back(one("100,000 of 1,048,576", most, Random(24).ids(most, 100000)));
    all.push_back(one("20 runs of 50 of 1,048,576", most, Random(28).clusters(most, 20, 50)));
    all.push_back(one("2,000 runs of 50 of 1,048,576", most, Random(28).clusters(most, 2000, 50)));
    all.push_back(one("2,048 of 4,096", 4096, Random(25).ids(4096, 2048)));
    all.push_back(one("65,036 of 65,536", 65536, Random(26).ids(65536, 65036)));
    Random random(21);
    Input small{"1,000 sets of up to 64 of 64", {}};
    for (int i = 0; i < 1000; i++) {
        uint32_t len = uint32_t(random.below(65));
        small.sets.push_back({64, random.ids(64, len)});
    }
    all.push_back(std::move(small));
    return all;
}

// Those whose bytes are damaged: one set each.
inline std::vector<Input> damaged_inputs() {
    std::vector<Input> all = inputs();
    std::vector<Input> some;
    for (size_t i : {0, 3, 5, 6}) some.push_back(std::move(all[i]));
    some.push_back(one("20 of 64", 64, Random(21).ids(64, 20)));
    return some;
}

} // namespace peers
