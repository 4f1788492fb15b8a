// What is compared: ways of keeping sets, each beside the others on the same inputs.
#pragma once

#include <cstddef>
#include <cstdint>
#include <memory>
#include <string>
#include <vector>

namespace peers {

using Bytes = std::vector<uint8_t>;

// Ids below n, ascending.
struct Set {
    uint32_t n;
    std::vector<uint32_t> ids;
};

// A form of sets as bytes.
class Coder {
public:
    virtual ~Coder() = default;
    // What stands in the tables, and what it is.
    virtual const char *name() const = 0;
    virtual const char *about() const = 0;
    // Bytes that any set of so many of n ids fits into.
    virtual size_t most(uint32_t n, size_t len) const = 0;
    // The set to the front of `out`, which has `most` bytes; answers how many it takes.
    virtual size_t write(uint32_t n, const uint32_t *ids, size_t len, uint8_t *out) = 0;
    // The set at the front of `bytes` to `ids`, which has n places. False where it refuses the bytes. Of `given` ids none was tested.
    virtual bool read(uint32_t n, const uint8_t *bytes, size_t len, uint32_t *ids, size_t &given) = 0;
    // So many bytes behind the input the library reads, as it says.
    virtual size_t behind() const { return 0; }
};

// A store on disk, with a blob for each key from 0 on.
class Store {
public:
    virtual ~Store() = default;
    virtual const char *name() const = 0;
    virtual const char *about() const = 0;
    // Opens the file, which it makes where there is none and `writes` says so. False where it refuses the file.
    virtual bool open(const std::string &path, bool writes) = 0;
    virtual void close() = 0;
    // Puts the sets under the next keys, in one transaction.
    virtual void put(const std::vector<const Set *> &sets) = 0;
    // The sets of all keys below `count` in one transaction, one after the other to the front of `ids`, which has n places. `given` is of
    // the last one. False where one is missing or refused.
    virtual bool get(size_t count, uint32_t n, uint32_t *ids, size_t &given) = 0;
};

// Every file of a peer lists what it brings; the number gives the place among the columns.
struct Listed {
    int place;
    std::unique_ptr<Coder> coder;
    std::unique_ptr<Store> store;
};

std::vector<Listed> &all();

struct Brings {
    Brings(int place, Coder *coder) { all().push_back({place, std::unique_ptr<Coder>(coder), nullptr}); }
    Brings(int place, Store *store) { all().push_back({place, nullptr, std::unique_ptr<Store>(store)}); }
};

} // namespace peers
