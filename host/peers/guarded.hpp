// Memory whose end is the end of what may be touched: who goes on behind it crashes.
#pragma once

#include <cstddef>
#include <cstdint>
#include <cstdlib>
#include <sys/mman.h>

namespace peers {

class Guarded {
    static constexpr size_t size = 16 << 20, guard = 1 << 20;
    uint8_t *begin;

public:
    Guarded() {
        void *got = mmap(nullptr, size + guard, PROT_READ | PROT_WRITE, MAP_PRIVATE | MAP_ANONYMOUS, -1, 0);
        if (got == MAP_FAILED) std::abort();
        begin = static_cast<uint8_t *>(got);
        if (mprotect(begin + size, guard, PROT_NONE) != 0) std::abort();
    }
    Guarded(const Guarded &) = delete;
    ~Guarded() { munmap(begin, size + guard); }

    // The last `bytes` bytes; at most 16 MiB.
    uint8_t *before_end(size_t bytes) {
        if (bytes > size) std::abort();
        return begin + (size - bytes);
    }
};

} // namespace peers
