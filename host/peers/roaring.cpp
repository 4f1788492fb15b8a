#include "peer.hpp"
#include <roaring/roaring.h>

namespace peers {

class Roaring : public Coder {
    const char *name() const override { return "CRoaring"; }
    const char *about() const override { return "a Roaring bitmap in its portable form after run_optimize; read by portable_deserialize_safe and to_uint32_array"; }
    // 65,536 ids at most to a container, and a container of 8,192 bytes at most; then its key and what stands before the containers.
    size_t most(uint32_t n, size_t) const override { return (size_t(n) / 65536 + 1) * (8192 + 16) + 64; }
    size_t write(uint32_t, const uint32_t *ids, size_t len, uint8_t *out) override {
        roaring_bitmap_t *made = roaring_bitmap_of_ptr(len, ids);
        roaring_bitmap_run_optimize(made);
        size_t size = roaring_bitmap_portable_serialize(made, reinterpret_cast<char *>(out));
        roaring_bitmap_free(made);
        return size;
    }
    bool read(uint32_t n, const uint8_t *bytes, size_t len, uint32_t *ids, size_t &given) override {
        roaring_bitmap_t *made = roaring_bitmap_portable_deserialize_safe(reinterpret_cast<const char *>(bytes), len);
        if (!made) return false;
        given = roaring_bitmap_get_cardinality(made);
        bool fits = given <= n;
        if (fits) roaring_bitmap_to_uint32_array(made, ids);
        roaring_bitmap_free(made);
        return fits;
    }
};

static Brings brings(1, new Roaring);

} // namespace peers
