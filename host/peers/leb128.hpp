// Sets as LEB128: how many ids, the first one, then what is between each and the next. The reader stays within its input and tests
// nothing else, as such code mostly is.
#pragma once

#include "peer.hpp"

namespace peers::leb128 {

inline uint8_t *put(uint32_t value, uint8_t *out) {
    for (; value > 127; value >>= 7) *out++ = uint8_t(value | 128);
    *out++ = uint8_t(value);
    return out;
}

// Where the number ends, or nullptr where the input ends first or the number has more than five bytes.
inline const uint8_t *get(const uint8_t *at, const uint8_t *end, uint32_t &value) {
    value = 0;
    for (int shift = 0; at < end && shift < 35; shift += 7) {
        value |= uint32_t(*at & 127) << shift;
        if (*at++ < 128) return at;
    }
    return nullptr;
}

inline size_t most(size_t len) { return 5 * (len + 1); }

inline size_t write(const uint32_t *ids, size_t len, uint8_t *out) {
    uint8_t *at = put(uint32_t(len), out);
    uint32_t next = 0;
    for (size_t i = 0; i < len; i++) {
        at = put(ids[i] - next, at);
        next = ids[i] + 1;
    }
    return size_t(at - out);
}

inline bool read(uint32_t n, const uint8_t *bytes, size_t size, uint32_t *ids, size_t &given) {
    const uint8_t *end = bytes + size;
    uint32_t count, gap, next = 0;
    const uint8_t *at = get(bytes, end, count);
    if (!at || count > n) return false;
    for (uint32_t i = 0; i < count; i++) {
        at = get(at, end, gap);
        if (!at) return false;
        ids[i] = next + gap;
        next = ids[i] + 1;
    }
    given = count;
    return true;
}

} // namespace peers::leb128
