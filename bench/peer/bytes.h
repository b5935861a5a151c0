// Little-endian numbers at a byte, on a machine that has them in this order itself.
#pragma once

#include <cstdint>
#include <cstring>

namespace peer {

inline uint32_t u16_at(const uint8_t *byte) {
    uint16_t number;
    std::memcpy(&number, byte, sizeof number);
    return number;
}

inline uint32_t u32_at(const uint8_t *byte) {
    uint32_t number;
    std::memcpy(&number, byte, sizeof number);
    return number;
}

} // namespace peer
