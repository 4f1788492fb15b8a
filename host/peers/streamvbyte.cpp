#include "leb128.hpp"
#include <streamvbyte.h>
#include <streamvbytedelta.h>

namespace peers {

class StreamVByte : public Coder {
    const char *name() const override { return "StreamVByte"; }
    const char *about() const override { return "the count as LEB128, then streamvbyte_delta_encode. The library doesn't test its input: before it reads, the count is held against N and the control bytes against the input, and behind it the bytes that it read"; }
    size_t most(uint32_t, size_t len) const override { return 5 + streamvbyte_max_compressedbytes(uint32_t(len)) + 16; }
    size_t behind() const override { return 16; }
    size_t write(uint32_t, const uint32_t *ids, size_t len, uint8_t *out) override {
        uint8_t *at = leb128::put(uint32_t(len), out);
        return size_t(at - out) + streamvbyte_delta_encode(ids, uint32_t(len), at, 0);
    }
    bool read(uint32_t n, const uint8_t *bytes, size_t len, uint32_t *ids, size_t &given) override {
        uint32_t count;
        const uint8_t *at = leb128::get(bytes, bytes + len, count);
        if (!at || count > n) return false;
        size_t rest = size_t(bytes + len - at);
        if ((size_t(count) + 3) / 4 > rest || streamvbyte_delta_decode(at, ids, count, 0) > rest) return false;
        given = count;
        return true;
    }
};

static Brings brings(3, new StreamVByte);

} // namespace peers
