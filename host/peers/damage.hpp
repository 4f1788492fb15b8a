// What readers make of changed bytes.
#pragma once

#include "guarded.hpp"
#include "inputs.hpp"
#include "speed.hpp"
#include <csignal>
#include <cstring>
#include <fstream>
#include <iterator>
#include <sys/resource.h>
#include <sys/wait.h>

namespace peers {

constexpr size_t TRIALS = 3000;
// So many trials share a process, as long as none ends it.
constexpr size_t BATCH = 50;
// A reader that takes longer is stopped.
constexpr unsigned MOST_SECONDS = 5;

// The bytes with one change, other than they were: a byte set to another, a bit flipped, cut, or two bytes exchanged.
inline Bytes changed(const Bytes &bytes, size_t kind, Random &random) {
    for (;;) {
        Bytes other = bytes;
        size_t at = random.below(bytes.size());
        switch (kind) {
        case 0: other[at] = uint8_t(random.word()); break;
        case 1: other[at] ^= uint8_t(1 << random.below(8)); break;
        case 2: other.resize(at); break;
        default: std::swap(other[at], other[random.below(bytes.size())]);
        }
        if (other != bytes) return other;
    }
}

// What became of a trial. A set is taken for one where its ids ascend and are below n.
enum Outcome { REFUSED, NO_SET, AS_IT_WAS, ANOTHER, AS_IT_WAS_UNWRITTEN, ANOTHER_UNWRITTEN, CRASHED, STOPPED, OUTCOMES };

inline Outcome judged(const Set &set, const uint32_t *ids, size_t given) {
    for (size_t i = 0; i < given; i++) {
        if (ids[i] >= set.n || (i > 0 && ids[i] <= ids[i - 1])) return NO_SET;
    }
    return given == set.ids.size() && std::equal(ids, ids + given, set.ids.begin()) ? AS_IT_WAS : ANOTHER;
}

struct Counts {
    size_t of[OUTCOMES] = {};
    size_t taken() const { return of[AS_IT_WAS] + of[ANOTHER] + unwritten(); }
    size_t unwritten() const { return of[AS_IT_WAS_UNWRITTEN] + of[ANOTHER_UNWRITTEN]; }
    size_t another() const { return of[ANOTHER] + of[ANOTHER_UNWRITTEN]; }
};

// The peer's bytes of a set, and a trial with others: the bytes and the ids lie where memory ends.
class CoderTrial {
    Coder &coder;
    const Set &set;
    Guarded input, output;

public:
    CoderTrial(Coder &coder, const Set &set) : coder(coder), set(set) {}
    Bytes written(const uint32_t *ids, size_t len) {
        Bytes bytes(coder.most(set.n, len) + 64);
        bytes.resize(coder.write(set.n, ids, len, bytes.data()));
        return bytes;
    }
    Bytes written() { return written(set.ids.data(), set.ids.size()); }
    Outcome trial(const Bytes &bytes) {
        uint8_t *from = input.before_end(bytes.size() + coder.behind());
        std::memcpy(from, bytes.data(), bytes.size());
        uint32_t *ids = reinterpret_cast<uint32_t *>(output.before_end(set.n * sizeof(uint32_t)));
        size_t given = 0;
        if (!coder.read(set.n, from, bytes.size(), ids, given)) return REFUSED;
        Outcome is = judged(set, ids, given);
        if (is == NO_SET) return is;
        // What the writer writes for the set that was read begins the bytes, or no writer wrote them.
        Bytes again = written(ids, given);
        if (again.size() <= bytes.size() && std::equal(again.begin(), again.end(), bytes.begin())) return is;
        return is == AS_IT_WAS ? AS_IT_WAS_UNWRITTEN : ANOTHER_UNWRITTEN;
    }
};

// The same of a store's file, which holds the one set.
class StoreTrial {
    Store &store;
    const Set &set;
    std::string path;

public:
    StoreTrial(Store &store, const Set &set, const std::string &folder) : store(store), set(set), path(folder + "/" + store.name()) {}
    ~StoreTrial() { remove_store(path); }
    Bytes written() {
        remove_store(path);
        if (!store.open(path, true)) wrong(store.name(), "refused");
        store.put({&set});
        store.close();
        std::ifstream file(path, std::ios::binary);
        return Bytes(std::istreambuf_iterator<char>(file), {});
    }
    Outcome trial(const Bytes &bytes) {
        std::ofstream(path, std::ios::binary).write(reinterpret_cast<const char *>(bytes.data()), std::streamsize(bytes.size()));
        std::vector<uint32_t> ids(set.n);
        size_t given = 0;
        if (!store.open(path, false)) return REFUSED;
        bool got = store.get(1, set.n, ids.data(), given);
        store.close();
        if (!got) return REFUSED;
        return judged(set, ids.data(), given);
    }
};

// What the children found. It is shared with them.
struct Found {
    size_t at;
    uint8_t outcome[TRIALS];
};

// The trials from `from` on, up to the end of a batch, in a process of its own, so that whatever they do ends there. Answers with which to
// go on: behind a trial that ended the process.
template <class Trials> size_t batch(Trials &trials, const Bytes &bytes, size_t from, Found &found) {
    size_t to = std::min(from + BATCH, TRIALS);
    std::fflush(nullptr);
    pid_t child = fork();
    if (child < 0) wrong("fork", "refused");
    if (child == 0) {
        rlimit none{0, 0};
        setrlimit(RLIMIT_CORE, &none);
        if (!std::freopen("/dev/null", "w", stderr)) _exit(1);
        for (found.at = from; found.at < to; found.at++) {
            alarm(MOST_SECONDS);
            Random random(1000 + found.at);
            found.outcome[found.at] = uint8_t(trials.trial(changed(bytes, found.at % 4, random)));
        }
        _exit(0);
    }
    int status;
    if (waitpid(child, &status, 0) != child) wrong("wait", "refused");
    if (WIFEXITED(status) && WEXITSTATUS(status) == 0) return to;
    found.outcome[found.at] = WIFSIGNALED(status) && WTERMSIG(status) == SIGALRM ? STOPPED : CRASHED;
    return found.at + 1;
}

template <class Trials> Counts damage(Trials trials) {
    void *shared = mmap(nullptr, sizeof(Found), PROT_READ | PROT_WRITE, MAP_SHARED | MAP_ANONYMOUS, -1, 0);
    if (shared == MAP_FAILED) wrong("mmap", "refused");
    Found &found = *static_cast<Found *>(shared);
    Bytes bytes = trials.written();
    if (trials.trial(bytes) != AS_IT_WAS) wrong("damage", "unchanged bytes were not read");
    for (size_t i = 0; i < TRIALS;) i = batch(trials, bytes, i, found);
    Counts counts;
    for (size_t i = 0; i < TRIALS; i++) counts.of[found.outcome[i]]++;
    munmap(shared, sizeof(Found));
    return counts;
}

inline std::vector<Counts> damage_all(const Input &input, const std::string &folder) {
    std::vector<Counts> all_counts;
    for (Listed &peer : all()) {
        const Set &set = input.sets[0];
        if (peer.coder) all_counts.push_back(damage<CoderTrial &&>(CoderTrial(*peer.coder, set)));
        else all_counts.push_back(damage<StoreTrial &&>(StoreTrial(*peer.store, set, folder)));
    }
    return all_counts;
}

} // namespace peers
