// Roadfinch's records, through the C functions of the archive.
#include "peer.hpp"
#include "roadfinch.h"

namespace peers {

class Roadfinch : public Coder {
    const char *name() const override { return "Roadfinch"; }
    const char *about() const override { return "a record: its length, then gaps, bits or absent ids in Elias delta codes; rf_write_record, rf_read_record"; }
    size_t most(uint32_t n, size_t) const override { return RF_MAX_RECORD(n); }
    size_t write(uint32_t n, const uint32_t *ids, size_t len, uint8_t *out) override {
        uint64_t written = 0;
        rf_write_record(n, ids, len, out, RF_MAX_RECORD(n), &written);
        return written;
    }
    bool read(uint32_t n, const uint8_t *bytes, size_t len, uint32_t *ids, size_t &given) override {
        uint64_t items, taken;
        if (rf_read_record(n, bytes, len, ids, n, &items, &taken) != RF_OK) return false;
        given = items;
        return true;
    }
};

static Brings roadfinch(0, new Roadfinch);

} // namespace peers
