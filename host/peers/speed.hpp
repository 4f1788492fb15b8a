// Bytes a set takes, and the time to write and read it.
#pragma once

#include "inputs.hpp"
#include <algorithm>
#include <chrono>
#include <cstdio>
#include <cstdlib>
#include <sys/stat.h>
#include <unistd.h>

namespace peers {

constexpr int ROUNDS = 11;
constexpr double ROUND_SECONDS = 0.004;
// A store holds each single set so often, under as many keys.
constexpr size_t COPIES = 50;

inline double seconds() {
    using namespace std::chrono;
    return duration<double>(steady_clock::now().time_since_epoch()).count();
}

[[noreturn]] inline void wrong(const char *name, const std::string &what) {
    std::fprintf(stderr, "%s: %s\n", name, what.c_str());
    std::exit(1);
}

// A peer at one input. The times are of one call, for all sets.
class Side {
public:
    virtual ~Side() = default;
    virtual double write_seconds() = 0;
    virtual double read_seconds() = 0;
    virtual double bytes_a_set() = 0;
    // How many sets a call writes or reads for each of the input's.
    virtual size_t copies() const { return 1; }
};

// The mean of so many calls as take the time of a round.
template <class Call> double mean(Call call) {
    size_t calls = 0;
    double began = seconds(), now;
    do {
        call();
        calls++;
        now = seconds();
    } while (now - began < ROUND_SECONDS);
    return (now - began) / double(calls);
}

// All sets one behind the other, read by their starts.
class CoderSide : public Side {
    Coder &coder;
    const Input &input;
    Bytes file;
    std::vector<size_t> starts;
    std::vector<uint32_t> ids;

public:
    CoderSide(Coder &coder, const Input &input) : coder(coder), input(input), starts(input.sets.size() + 1) {
        size_t most = 64;
        uint32_t n = 0;
        for (const Set &set : input.sets) {
            most += coder.most(set.n, set.ids.size());
            n = std::max(n, set.n);
        }
        file.resize(most);
        ids.resize(n + 64);
        write();
        for (size_t i = 0; i < input.sets.size(); i++) {
            const Set &set = input.sets[i];
            size_t given = read(i);
            if (!std::equal(set.ids.begin(), set.ids.end(), ids.begin(), ids.begin() + given)) wrong(coder.name(), "another set was read in " + input.name);
        }
    }
    void write() {
        size_t at = 0;
        for (size_t i = 0; i < input.sets.size(); i++) {
            const Set &set = input.sets[i];
            starts[i] = at;
            at += coder.write(set.n, set.ids.data(), set.ids.size(), file.data() + at);
        }
        starts.back() = at;
    }
    size_t read(size_t i) {
        size_t given = 0;
        if (!coder.read(input.sets[i].n, file.data() + starts[i], starts[i + 1] - starts[i], ids.data(), given)) wrong(coder.name(), "refused");
        return given;
    }
    double write_seconds() override {
        return mean([&] { write(); });
    }
    double read_seconds() override {
        return mean([&] {
            for (size_t i = 0; i < input.sets.size(); i++) read(i);
        });
    }
    double bytes_a_set() override { return double(starts.back()) / double(input.sets.size()); }
};

inline void remove_store(const std::string &path) {
    for (const char *more : {"", "-journal", "-wal", "-shm", "-lock"}) unlink((path + more).c_str());
}

// A fresh file for each write; opening it is not timed.
class StoreSide : public Side {
    Store &store;
    std::string path;
    size_t times;
    uint32_t n = 0;
    std::vector<const Set *> sets;
    std::vector<uint32_t> ids;

public:
    StoreSide(Store &store, const Input &input, const std::string &folder)
        : store(store), path(folder + "/" + store.name()), times(input.sets.size() == 1 ? COPIES : 1) {
        for (size_t i = 0; i < times; i++) {
            for (const Set &set : input.sets) {
                sets.push_back(&set);
                n = std::max(n, set.n);
            }
        }
        ids.resize(n + 64);
        write_seconds();
        if (!store.open(path, false)) wrong(store.name(), "refused");
        size_t given;
        const Set &last = *sets.back();
        if (!store.get(sets.size(), n, ids.data(), given)) wrong(store.name(), "refused");
        if (!std::equal(last.ids.begin(), last.ids.end(), ids.begin(), ids.begin() + given)) wrong(store.name(), "another set was read in " + input.name);
        store.close();
    }
    size_t copies() const override { return times; }
    double write_seconds() override {
        remove_store(path);
        if (!store.open(path, true)) wrong(store.name(), "refused");
        double began = seconds();
        store.put(sets);
        double took = seconds() - began;
        store.close();
        return took;
    }
    double read_seconds() override {
        if (!store.open(path, false)) wrong(store.name(), "refused");
        double took = mean([&] {
            size_t given;
            if (!store.get(sets.size(), n, ids.data(), given)) wrong(store.name(), "refused");
        });
        store.close();
        return took;
    }
    double bytes_a_set() override {
        struct stat of;
        return stat(path.c_str(), &of) == 0 ? double(of.st_size) / double(sets.size()) : 0;
    }
};

struct Measured {
    double bytes, write, read;
};

// All peers at one input, in turn; the shortest round counts. Nanoseconds an id.
inline std::vector<Measured> measure(const Input &input, const std::string &folder) {
    std::vector<std::unique_ptr<Side>> sides;
    for (Listed &peer : all()) {
        if (peer.coder) sides.push_back(std::make_unique<CoderSide>(*peer.coder, input));
        else sides.push_back(std::make_unique<StoreSide>(*peer.store, input, folder));
    }
    std::vector<Measured> best;
    for (auto &side : sides) best.push_back({side->bytes_a_set(), 1e9, 1e9});
    for (int round = 0; round < ROUNDS; round++) {
        for (size_t i = 0; i < sides.size(); i++) {
            double each = 1e9 / double(input.ids() * sides[i]->copies());
            best[i].write = std::min(best[i].write, sides[i]->write_seconds() * each);
            best[i].read = std::min(best[i].read, sides[i]->read_seconds() * each);
        }
    }
    return best;
}

} // namespace peers
