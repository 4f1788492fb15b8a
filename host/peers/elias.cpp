// The Elias delta coder of sdsl, with which its compressed vectors are made.
#include "guarded.hpp"
#include "leb128.hpp"
#include <cstring>
#include <sdsl/coder_elias_delta.hpp>

namespace peers {

using sdsl::coder::elias_delta;

// Takes sums of gaps from 1 on, and keeps ids, from 0 on.
struct Ids {
    uint32_t *at;
    Ids operator++(int) { return Ids{at++}; }
    struct Place {
        uint32_t *at;
        void operator=(uint64_t sum) { *at = uint32_t(sum - 1); }
    };
    Place operator*() const { return Place{at}; }
};

class Elias : public Coder {
    std::vector<uint64_t> words;
    Guarded copied;

    const char *name() const override { return "sdsl"; }
    const char *about() const override { return "the count as LEB128, then gaps by sdsl::coder::elias_delta. The coder doesn't test its input: the count is held against N before it reads"; }
    size_t most(uint32_t, size_t len) const override { return 5 + 8 * (len + 2); }
    size_t write(uint32_t, const uint32_t *ids, size_t len, uint8_t *out) override {
        // As in the library's own `encode`: first how long, then the codes.
        size_t bits = 0;
        uint32_t next = 0;
        for (size_t i = 0; i < len; i++) {
            bits += elias_delta::encoding_length(ids[i] + 1 - next);
            next = ids[i] + 1;
        }
        if (words.size() < bits / 64 + 2) words.resize(bits / 64 + 2);
        words[bits / 64] = 0;
        uint64_t *to = words.data();
        uint8_t offset = 0;
        next = 0;
        for (size_t i = 0; i < len; i++) {
            elias_delta::encode(ids[i] + 1 - next, to, offset);
            next = ids[i] + 1;
        }
        uint8_t *at = leb128::put(uint32_t(len), out);
        std::memcpy(at, words.data(), (bits + 7) / 8);
        return size_t(at - out) + (bits + 7) / 8;
    }
    bool read(uint32_t n, const uint8_t *bytes, size_t len, uint32_t *ids, size_t &given) override {
        uint32_t count;
        const uint8_t *at = leb128::get(bytes, bytes + len, count);
        if (!at || count > n) return false;
        // The library reads words, and one word behind the last code.
        size_t rest = size_t(bytes + len - at), whole = (rest + 7) / 8 * 8 + 8;
        uint8_t *from = copied.before_end(whole);
        std::memset(from + whole - 16, 0, 16);
        std::memcpy(from, at, rest);
        elias_delta::decode<true, true>(reinterpret_cast<uint64_t *>(from), 0, count, Ids{ids});
        given = count;
        return true;
    }
};

static Brings brings(4, new Elias);

} // namespace peers
