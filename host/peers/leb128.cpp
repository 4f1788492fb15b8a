#include "leb128.hpp"

namespace peers {

class Leb128 : public Coder {
    const char *name() const override { return "LEB128"; }
    const char *about() const override { return "the count, then gaps, each in as many bytes as it needs; a few lines written for this comparison"; }
    size_t most(uint32_t, size_t len) const override { return leb128::most(len); }
    size_t write(uint32_t, const uint32_t *ids, size_t len, uint8_t *out) override { return leb128::write(ids, len, out); }
    bool read(uint32_t n, const uint8_t *bytes, size_t len, uint32_t *ids, size_t &given) override {
        return leb128::read(n, bytes, len, ids, given);
    }
};

static Brings brings(2, new Leb128);

} // namespace peers
